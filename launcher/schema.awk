# Tells of each column of a CSV file what it holds. A line `file ROWS QUOTES UNEVEN RETURNS` for all, where UNEVEN is the number of rows
# with another number of fields than the header and RETURNS that of lines with a carriage return, and then for each column a line with
# tabs between the fields: its number, its name, its kind (number or decimal; below or below_decimal where some have a minus sign; word),
# least and greatest number, what all differences from the first number are multiples of, how many fields are empty, digits behind the
# point, the first field, how many different words (up to 257), and those.
BEGIN { OFS = "\t"; most = 257 }

{ returns += sub(/\r$/, "") }
NR == 1 { sub(/^\357\273\277/, "") }
$0 == "" { next }

{ if (index($0, "\"")) quotes = 1; count = cut($0) }

!columns { columns = count; for (i = 1; i <= count; i++) name[i] = field[i]; next }

{
  rows++
  if (count != columns) uneven++
  for (i = 1; i <= columns; i++) note(i, i <= count ? field[i] : "")
}

END {
  print "file", rows + 0, quotes + 0, uneven + 0, returns + 0
  for (i = 1; i <= columns; i++)
    print i, clean(name[i]), kind(i), least[i], greatest[i], sprintf("%.0f", common[i]),
      empty[i] + 0, digits[i] + 0, clean(first[i]), different[i] + 0, words[i]
}

# Cuts a record at its commas, those in quotes left alone.
function cut(line, number, text) {
  number = 0
  while (1) {
    if (match(line, /^"([^"]|"")*"/)) {
      text = substr(line, 2, RLENGTH - 2)
      gsub(/""/, "\"", text)
      line = substr(line, RLENGTH + 1)
    } else {
      match(line, /^[^,]*/)
      text = substr(line, 1, RLENGTH)
      line = substr(line, RLENGTH + 1)
    }
    field[++number] = text
    if (line == "") return number
    line = substr(line, 2)
  }
}

function note(i, text, number, count) {
  if (text == "") { empty[i]++; return }
  if (!(i in first)) first[i] = text
  if (!((i, text) in seen) && different[i] < most) {
    seen[i, text] = 1
    different[i]++
    words[i] = words[i] (different[i] > 1 ? "\001" : "") clean(text)
  }
  number = text
  if (sub(/^-/, "", number)) negatives[i]++
  if (number ~ /^[0-9]*\.[0-9]+$/) {
    decimals[i]++
    count = length(number) - index(number, ".")
    if (count > digits[i]) digits[i] = count
  } else if (number !~ /^[0-9]+$/) { other[i]++; return }
  sub(/^0+/, "", number)
  if (number == "" || number ~ /^\./) number = "0" number
  if (text ~ /^-/ && number ~ /[1-9]/) number = "-" number
  if (!(i in least) || below(number, least[i])) least[i] = number
  if (!(i in greatest) || below(greatest[i], number)) greatest[i] = number
  if (!(i in base)) base[i] = number
  else common[i] = divisor(common[i], number + 0 > base[i] + 0 ? number - base[i] : base[i] - number)
}

# Whole numbers of any length are compared as texts.
function below(one, two) {
  if (one ~ /^-/ && two ~ /^-/) return below(substr(two, 2), substr(one, 2))
  if (one ~ /^-/ || two ~ /^-/) return one ~ /^-/
  if (one ~ /\./ || two ~ /\./) return one + 0 < two + 0
  if (length(one) != length(two)) return length(one) < length(two)
  return one "" < two ""
}

function divisor(a, b, rest) {
  while (b > 0) { rest = a % b; a = b; b = rest }
  return a
}

function kind(i) {
  if (other[i]) return "word"
  if (negatives[i]) return decimals[i] ? "below_decimal" : "below"
  if (decimals[i]) return "decimal"
  return (i in least) ? "number" : "word"
}

function clean(text) {
  gsub(/[\001-\037]/, " ", text)
  return text
}
