# Reads what `groups` prints, and refuses what it can't have printed: the first fault is printed as a sentence, and the status is 5.
# Else there are the queries from 0 on, with their buckets from 0 on: buckets[q], rows[q], sort[q] (count or sum), and for bucket b
# total[q, b] as it was printed, which may be negative, or refused[q, b].
BEGIN { queries = 0; greatest_total = "9223372036854775807"; greatest_word = "340282366920938463463374607431768211455" }

{ read_line() }

function read_line(    query, bucket) {
  if ($1 == "waldo:") fail("groups refused its words or its rows: " shown($0))
  if (!is_group()) fail("line " NR " is no line that groups prints: " shown($0))
  query = $2 + 0
  bucket = $4 + 0
  if (bucket == 0) {
    if (query != queries) fail("line " NR " begins query " query " where query " queries " has to begin")
    if (queries > 0) end_query(queries - 1)
    if (queries == 16) fail("line " NR " begins query 16, and groups takes at most 16")
    queries++
  } else if (query != queries - 1 || bucket != buckets[query]) {
    fail("line " NR " has bucket " bucket " of query " query where_next())
  }
  if (bucket > 255) fail("line " NR " has bucket 256, and a column has at most 256")
  buckets[query]++
  if ($5 == "rows") note_total(query, bucket); else note_refused(query, bucket)
}

function where_next() {
  if (queries == 0) return " where bucket 0 of query 0 has to stand"
  return " where bucket " buckets[queries - 1] " of query " (queries - 1) " or bucket 0 of query " queries " has to stand"
}

# The one form or the other, with one space between two words and nothing besides.
function is_group() {
  if ($1 != "group" || $3 != "bucket" || !is_number($2, "15") || !is_number($4, "256")) return 0
  if ($5 == "rows")
    return NF == 8 && is_number($6, "65536") && ($7 == "count" || $7 == "sum") && is_total($8) && is_spaced()
  return NF == 9 && $5 == "altered" && $6 == "total" && is_number($7, greatest_word) &&
    $8 == "weighted" && is_number($9, greatest_word) && is_spaced()
}

function is_spaced(    i, text) {
  text = $1
  for (i = 2; i <= NF; i++) text = text " " $i
  return text == $0
}

# A number without zeros in front, up to the greatest; longer than awk's own numbers are exact, so by length and then letter by letter.
function is_number(text, greatest) {
  if (text !~ /^(0|[1-9][0-9]*)$/) return 0
  if (length(text) != length(greatest)) return length(text) < length(greatest)
  return ("x" text) <= ("x" greatest)
}

# A total is such a number, or one above 0 behind a minus sign.
function is_total(text) {
  return text ~ /^-[1-9]/ ? is_number(substr(text, 2), greatest_total) : is_number(text, greatest_total)
}

# All buckets of a query are over the same rows, and counted or summed alike.
function note_total(query, bucket) {
  if (sort[query] == "") {
    sort[query] = $7
    rows[query] = $6
  }
  if (sort[query] != $7 || rows[query] != $6)
    fail("line " NR " has " $6 " rows and a " $7 ", and an earlier line of query " query " has " rows[query] " rows and a " sort[query])
  if ($7 == "count" && ($8 + 0 > $6 + 0 || $8 + 0 < 0)) fail("line " NR " counts " $8 " of " $6 " rows")
  total[query, bucket] = $8
}

function note_refused(query, bucket) {
  refused[query, bucket] = 1
  refusals++
}

# A column has 2, 4, 8 and so on up to 256 buckets: with another number the text was cut.
function end_query(query,    number) {
  number = 2
  while (number < buckets[query]) number = 2 * number
  if (number != buckets[query])
    fail("query " query " ends with bucket " (buckets[query] - 1) ", where a column has 2, 4, 8 .. or 256 buckets: the text is not whole")
}

# Called where all lines were read.
function end_reading() {
  if (failed) exit 5
  if (queries == 0) fail("there is no line: groups has printed nothing")
  end_query(queries - 1)
}

function fail(sentence) {
  print sentence
  failed = 1
  exit 5
}

# A line cut to some 60 characters, and odd ones left out.
function shown(text) {
  gsub(/[^ -~]/, "?", text)
  return "'" (length(text) > 60 ? substr(text, 1, 56) ".." : text) "'"
}

# The ends of a query's scale, low and high. An end that isn't 0 has a size of 1, 2 or 5 times a power of ten that no total's size is above,
# and is exact, being such a number; it is there where some total is on that side of 0, and above 0 also where no total is on either.
function find_scale(query,    b, number, greatest, negative, positive) {
  greatest = 0
  for (b = 0; b < buckets[query]; b++) {
    number = total[query, b] + 0
    if (number < 0) negative = 1
    if (number > 0) positive = 1
    if (number < 0) number = -number
    if (number > greatest) greatest = number
  }
  high = positive || !negative ? scale_end(greatest) : 0
  low = negative ? -scale_end(greatest) : 0
}

function scale_end(greatest,    power) {
  power = 1
  while (1) {
    if (greatest <= power) return power
    if (greatest <= 2 * power) return 2 * power
    if (greatest <= 5 * power) return 5 * power
    power = 10 * power
  }
}

function title(query) {
  if (sort[query] == "") return "query " query ": refused in every bucket"
  return "query " query ": " sort[query] " by bucket, over " rows[query] (rows[query] == "1" ? " row" : " rows")
}
