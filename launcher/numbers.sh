# Numbers of up to 2^64 - 1 as decimal texts. The shell's own stop at 2^63 - 1.
largest_number=18446744073709551615

# Whether a text is a number: 1 to 20 digits with a value below 2^64.
is_number() {
  [[ $1 =~ ^[0-9]{1,20}$ ]] && ! exceeds "$1" "$largest_number"
}

# A decimal without leading zeros.
plain() {
  local text=$1
  text=${text#"${text%%[!0]*}"}
  printf %s "${text:-0}"
}

# Whether the first decimal is greater than the second.
exceeds() {
  local one=$(plain "$1") other=$(plain "$2")
  if ((${#one} != ${#other})); then
    ((${#one} > ${#other}))
  else
    [[ $one > $other ]]
  fi
}

# first + count * step - 1, the last number of `count` steps from `first` on. Each decimal is two halves of at most 12 digits.
last_of() { # first, count up to 256, step
  local first=$(printf %024s "$1") step=$(printf %024s "$3") low high
  first=${first// /0} step=${step// /0}
  low=$((10#${first:12} + $2 * 10#${step:12} - 1))
  high=$((10#${first:0:12} + $2 * 10#${step:0:12}))
  ((low < 0)) && low=$((low + 1000000000000)) high=$((high - 1))
  high=$((high + low / 1000000000000)) low=$((low % 1000000000000))
  plain "$(printf '%d%012d' "$high" "$low")"
}
