# Draws the totals that plot_read.awk has read, as bars for a terminal: a bar a bucket, which begins at the axis at 0 and goes to
# the right, or to the left where the total is negative, and the scale below. The scale is 50 characters wide.
BEGIN { wide = 50 }

END {
  end_reading()
  for (q = 0; q < queries; q++) {
    if (q > 0) print ""
    draw(q)
  }
}

function draw(query,    b, margin, line) {
  find_scale(query)
  margin = length("bucket " (buckets[query] - 1))
  print title(query)
  for (b = 0; b < buckets[query]; b++) {
    line = padded("bucket " b, margin) " "
    if ((query, b) in refused) print line axis(0) " refused: the check found it altered"
    else print line axis(total[query, b] + 0) " " total[query, b]
  }
  line = repeated("-", wide / 2 - 1)
  print padded("", margin) " +" line "+" line "+"
  print_scale(margin + 1)
}

# The axis with a total's bar, behind what is left of it on the scale.
function axis(number,    room, drawn) {
  room = -low / (high - low) * wide
  if (number >= 0) return repeated(" ", room) "|" bar(number)
  drawn = bar(-number)
  return repeated(" ", room - length(drawn)) drawn "|"
}

# At least a dot for what isn't 0.
function bar(size,    long) {
  long = int(size / (high - low) * wide + 0.5)
  if (size > 0 && long == 0) return "."
  return repeated("#", long)
}

# The ends and what is halfway.
function print_scale(from) {
  print centred(centred(centred("", number_text(low), from), number_text((low + high) / 2), from + wide / 2), number_text(high), from + wide)
}

# A scale of one side to 1 has no number halfway, one to 5 has 2.5.
function number_text(number) {
  if (number == 0.5 || number == -0.5) return ""
  if (number == 2.5 || number == -2.5) return sprintf("%.1f", number)
  return sprintf("%.0f", number)
}

function centred(line, text, at) {
  if (text == "") return line
  return padded(line, at - int(length(text) / 2)) text
}

function padded(text, long) {
  while (length(text) < long) text = text " "
  return text
}

function repeated(letter, number,    text) {
  text = ""
  while (number-- > 0) text = text letter
  return text
}
