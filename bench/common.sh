# What the scripts of this folder share: where the program is, and the launcher's memory setting. It is sourced.
home=$(dirname "$(readlink -f "${BASH_SOURCE[0]}")")/..
program=${WALDO_PROGRAM:-$home/crates/waldo_cli/out/waldo_cli}
# As the launcher sets it, unless it is set already; `GLIBC_TUNABLES=` before a script times the program without.
if [ -z "${GLIBC_TUNABLES+set}" ]; then
  GLIBC_TUNABLES=$(sed -n 's/^memory_setting=//p' "$home/launcher/run.sh")
  export GLIBC_TUNABLES LD_BIND_NOW=1
fi

# Keeps Python from leaving files here.
export PYTHONDONTWRITEBYTECODE=1

# Ends with status 3 and one line where a tool or the proved program is missing.
need() {
  local tool
  for tool; do command -v "$tool" >/dev/null || { echo "${0##*/}: skipped, there is no $tool" >&2; exit 3; }; done
}
need_program() {
  [ -x "$program" ] || { echo "${0##*/}: skipped, $program is not built; ./waldo builds it" >&2; exit 3; }
}
