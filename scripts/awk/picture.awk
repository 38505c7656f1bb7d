# The plan as a picture: a row for each way to cut, bars to scale, pieces coloured by item, the rest hatched.
function escaped(s) { gsub(/&/, "\\&amp;", s); gsub(/</, "\\&lt;", s); gsub(/>/, "\\&gt;", s); gsub(/"/, "\\&quot;", s); return s }
# a part of a colour from its hue, as hexadecimal digits
function tint(hue, shift, light,   h, v) {
  h = (hue + shift) % 360
  v = h < 60 ? h / 60 : h < 180 ? 1 : h < 240 ? (240 - h) / 60 : 0
  return sprintf("%02x", light + (245 - light) * v)
}
function colour(i,   hue, light) {
  hue = (i * 137.508 + 20) % 360; light = 120 + 35 * (i % 3)
  return "#" tint(hue, 120, light) tint(hue, 0, light) tint(hue, 240, light)
}
function text_at(x, y, size, anchor, s) { printf "<text x=\"%.1f\" y=\"%.1f\" font-size=\"%s\" text-anchor=\"%s\">%s</text>\n", x, y, size, anchor, escaped(s) > out }
# a label that is shortened to what the width holds, or left out
function label(x, y, width, high, s,   size) {
  size = high > 15 ? 11 : 9
  if (length(s) * size * 0.58 > width - 2) size = 8
  if (length(s) * size * 0.58 > width - 1) return
  text_at(x + width / 2, y + high / 2 + size * 0.36, size, "middle", s)
}
function draw_piece(i, f, d, x, y, width, high) {
  printf "<rect x=\"%.2f\" y=\"%.1f\" width=\"%.2f\" height=\"%.1f\" fill=\"%s\" stroke=\"#333\" stroke-width=\"0.7\"><title>%s</title></rect>\n", x, y, width, high, colour(i), escaped(piece_name(i, f)) > out
  label(x, y, width, high, measure(weight[i, f, d], d))
}
function draw_bar(l, d, x, y, high,   t, c, k, q, at, unit, rest) {
  t = bar[l]; unit = room / widest[d]; at = x
  printf "<rect x=\"%.2f\" y=\"%.1f\" width=\"%.2f\" height=\"%.1f\" fill=\"#fff\" stroke=\"#333\" stroke-width=\"0.7\"/>\n", x, y, (capacity[t, d] - saw[d]) * unit, high > out
  for (c = 1; c <= counts[l]; c++) {
    q = weight[item[l, c], form[l, c], d]
    if (q == 0) continue
    for (k = 1; k <= count[l, c] && k <= 400; k++) { draw_piece(item[l, c], form[l, c], d, at, y, (q - saw[d]) * unit, high); at += q * unit }
  }
  rest = rest_of(t, d, used[l, d]) * unit
  if (rest > 0.3) {
    printf "<rect x=\"%.2f\" y=\"%.1f\" width=\"%.2f\" height=\"%.1f\" fill=\"url(#rest)\" stroke=\"#333\" stroke-width=\"0.7\"/>\n", x + (capacity[t, d] - saw[d]) * unit - rest, y, rest, high > out
  }
}
function draw_row(l, y,   d, high) {
  high = dims > 1 ? 15 : 22
  text_at(left - 10, y + high * dims / 2 + 5, 13, "end", grouped(times[l]) " x")
  for (d = 1; d <= dims; d++) draw_bar(l, d, left, y + (d - 1) * (high + 2), high)
  text_at(left + room + 8, y + high * dims / 2 + 4, 10, "start", "rest " rest_size(l))
}
function draw_legend(y,   i, x, s) {
  x = left
  for (i = 1; i <= items; i++) {
    if (!made[i]) continue
    s = grouped(made[i]) " x " piece_name(i, 1) (forms[i] > 1 ? " .." : "")
    if (x + 22 + length(s) * 6.4 > left + room + 90) { x = left; y += 18 }
    printf "<rect x=\"%.1f\" y=\"%.1f\" width=\"12\" height=\"12\" fill=\"%s\" stroke=\"#333\" stroke-width=\"0.7\"/>\n", x, y - 10, colour(i) > out
    text_at(x + 17, y, 11, "start", s)
    x += 34 + length(s) * 6.4
  }
  return y
}
function legend_lines(   i, x, n, s) {
  x = left; n = 1
  for (i = 1; i <= items; i++) {
    if (!made[i]) continue
    s = grouped(made[i]) " x " piece_name(i, 1) (forms[i] > 1 ? " .." : "")
    if (x + 22 + length(s) * 6.4 > left + room + 90) { x = left; n++ }
    x += 34 + length(s) * 6.4
  }
  return n
}
function draw(file,   l, d, t, y, step, high) {
  out = file; left = 70; room = 820
  for (d = 1; d <= dims; d++) {
    widest[d] = 1
    for (t = 1; t <= types; t++) if (bars_of[t] > 0 && capacity[t, d] - saw[d] > widest[d]) widest[d] = capacity[t, d] - saw[d]
  }
  step = dims > 1 ? 17 * dims + 12 : 32
  high = 50 + lines * step + 24 + 18 * legend_lines() + 18 * dims + 10
  printf "<svg xmlns=\"http://www.w3.org/2000/svg\" width=\"1000\" height=\"%d\" viewBox=\"0 0 1000 %d\" font-family=\"Helvetica, Arial, sans-serif\">\n", high, high > out
  print "<defs><pattern id=\"rest\" width=\"6\" height=\"6\" patternUnits=\"userSpaceOnUse\" patternTransform=\"rotate(45)\"><rect width=\"6\" height=\"6\" fill=\"#fff\"/><line x1=\"0\" y1=\"0\" x2=\"0\" y2=\"6\" stroke=\"#999\" stroke-width=\"1.4\"/></pattern></defs>" > out
  print "<rect width=\"100%\" height=\"100%\" fill=\"#fff\"/>" > out
  text_at(left, 28, 15, "start", headline())
  y = 50
  for (l = 1; l <= lines; l++) { draw_row(l, y); y += step }
  if (lines) {
    y = draw_legend(y + 14)
    for (d = 1; d <= dims; d++) { y += 18; text_at(left, y + 6, 11, "start", (d == 1 ? times_of(bars, "bar") " (" used_bars() "); " : "") totals(d)) }
  }
  print "</svg>" > out
  close(out)
}
