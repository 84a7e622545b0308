# What the launcher does once it knows its part, by bash: `waldo` hands that in, then the top folder, its own name and the words.
set -u
part=$1 home=$2 name=$3
shift 3

say() { printf 'waldo: %s\n' "$*" >&2; }

# Tools and arrays need three open streams: what is closed is replaced by a stream that fails alike.
{ : 3>&2; } 2>/dev/null || exec 2>/dev/null
closed_output=
{ : 3>&1; } 2>/dev/null || { closed_output=yes; exec >/dev/null; }
{ : 3<&0; } 2>/dev/null || exec </

built=$home/built
. "$home/launcher/run.sh"
case $part in
  help)
    . "$home/launcher/help.sh"
    answer_help "$@"
    ;;
  schema)
    . "$home/launcher/schema.sh"
    propose_schema "${@:2}"
    ;;
  plot)
    . "$home/launcher/plot.sh"
    plot_groups "${@:2}"
    ;;
  build)
    # Asked again by bash, so that no build hangs on an odd shell.
    . "$home/launcher/fresh.sh"
    . "$home/launcher/build.sh"
    is_fresh || make_fresh "$@"
    ;;
esac
run "$@"
