# Draws the totals that plot_read.awk has read, as an SVG picture: a chart for each query, one below the other, with a title, an axis of the
# totals with its scale, and an axis at 0, below which a negative total is drawn. A refused bucket is a grey field as high as the chart.
BEGIN { left = 190; top = 50; wide = 640; tall = 240; below = 60; all_tall = top + tall + below }

END {
  end_reading()
  right = left + wide + 40
  bottom = queries * all_tall
  print "<svg xmlns=\"http://www.w3.org/2000/svg\" width=\"" right "\" height=\"" bottom "\" viewBox=\"0 0 " right " " bottom "\" " \
    "font-family=\"sans-serif\" font-size=\"13\" fill=\"#222\">"
  print "<title>Totals by bucket</title>"
  print "<rect width=\"100%\" height=\"100%\" fill=\"#fff\"/>"
  for (q = 0; q < queries; q++) draw(q, q * all_tall + top)
  print "</svg>"
}

function draw(query, from,    b) {
  find_scale(query)
  zero = from + tall * high / (high - low)
  print label(left + wide / 2, from - 22, "middle", title(query), " font-size=\"16\"")
  draw_scale(query, from)
  for (b = 0; b < buckets[query]; b++) draw_bucket(query, b, from)
  printf "<path d=\"M%d %dV%dM%d %dH%d\" fill=\"none\" stroke=\"#222\"/>\n", left, from, from + tall, left, zero, left + wide
  print label(left + wide / 2, from + tall + 42, "middle", "bucket", "")
}

# Lines across the chart at quarters of the scale, each with its number where it is whole.
function draw_scale(query, from,    i, at, step) {
  step = (high - low) / 4
  for (i = 0; i <= 4; i++) {
    at = from + tall - i * tall / 4
    if (at != zero) printf "<path d=\"M%d %dH%d\" stroke=\"#ddd\"/>\n", left, at, left + wide
    if ((high - low) * i % 4 == 0) print label(left - 8, at + 4, "end", sprintf("%.0f", low + step * i), "")
  }
  print label(20, from + tall / 2, "start", sort[query] == "" ? "total" : sort[query], "")
}

function draw_bucket(query, bucket, from,    step, at, number, size) {
  step = wide / buckets[query]
  at = left + bucket * step
  if ((query, bucket) in refused) {
    print field(at + step / 8, from, step * 3 / 4, tall, "#ccc", "bucket " bucket ": refused, the check found it altered")
    if (buckets[query] <= 16) print label(at + step / 2, from + tall / 2, "middle", buckets[query] <= 8 ? "refused" : "?", "")
  } else {
    number = total[query, bucket] + 0
    size = (number < 0 ? -number : number) / (high - low) * tall
    print field(at + step / 8, number < 0 ? zero : zero - size, step * 3 / 4, size, "#36c", "bucket " bucket ": " total[query, bucket])
    # above the bar, and of a negative total above the axis
    if (7 * length(total[query, bucket]) < step)
      print label(at + step / 2, (number < 0 ? zero : zero - size) - 4, "middle", total[query, bucket], "")
  }
  if (bucket % (buckets[query] <= 32 ? 1 : 16) == 0) print label(at + step / 2, from + tall + 20, "middle", bucket, "")
}

function field(x, y, across, tall, colour, words,    form) {
  form = "<rect x=\"%.2f\" y=\"%.2f\" width=\"%.2f\" height=\"%.2f\" fill=\"%s\"><title>%s</title></rect>"
  return sprintf(form, x, y, across, tall, colour, words)
}

function label(x, y, anchor, words, more) {
  return sprintf("<text x=\"%.2f\" y=\"%.2f\" text-anchor=\"%s\"%s>%s</text>", x, y, anchor, more, words)
}
