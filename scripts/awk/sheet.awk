# The report of vpack on an instance as a cutting plan. All is added up again from the instance; a difference is said, and the
# status is then 1.
function wrong(text) { print "sheet: " text > "/dev/stderr"; differs = 1 }
function times_of(n, what) { return grouped(n) " " what (n == 1 ? "" : "s") }
function percent(part, all) { return all > 0 ? sprintf("%.1f", 100 * part / all) " %" : "0.0 %" }
# what a piece or a bar measures, in the unit of the table: the saw cut that was added is taken away again
function measure(value, d) { return shown(value - saw[d], scale[d]) }
function bar_size(t,   d, text) {
  for (d = 1; d <= dims; d++) text = text (d > 1 ? " x " : "") measure(capacity[t, d], d)
  return text
}
function piece_size(i, f,   d, text) {
  for (d = 1; d <= dims; d++) text = text (d > 1 ? " x " : "") measure(weight[i, f, d], d)
  return text
}
function piece_name(i, f) { return (i in name) && name[i] != "" ? name[i] " " piece_size(i, f) : piece_size(i, f) }
# what is left of bar t behind its pieces and their cuts, where they weigh so much together
function rest_of(t, d, used) { return capacity[t, d] - saw[d] > used ? capacity[t, d] - saw[d] - used : 0 }
function rest_size(l,   d, text) {
  for (d = 1; d <= dims; d++) text = text (d > 1 ? " x " : "") shown(rest_of(bar[l], d, used[l, d]), scale[d])
  return text
}
# a line of bins: TIMES type T: ITEM.FORM*COUNT ..
function read_bins(   n, c, part, number, d, i, f, q) {
  lines++
  bar[lines] = $3 + 0; times[lines] = $1 + 0; counts[lines] = NF - 3
  if (bar[lines] < 1 || bar[lines] > types) { wrong("line " FNR " of the report: no such bar"); bar[lines] = 1 }
  for (c = 4; c <= NF; c++) {
    n = split($c, part, /[.*]/)
    i = part[1] + 0; f = part[2] + 0; q = part[3] + 0
    if (n != 3 || i < 1 || i > items || f < 1 || f > forms[i]) { wrong("line " FNR " of the report: no such piece: " $c); i = 1; f = 1; q = 0; if (!items) { counts[lines] = 0; return } }
    item[lines, c - 3] = i; form[lines, c - 3] = f; count[lines, c - 3] = q
    for (d = 1; d <= dims; d++) used[lines, d] += q * weight[i, f, d]
    within[lines, i] += q
    made[i] += q * times[lines]
    for (d = 1; d <= dims; d++) pieces_size[d] += q * times[lines] * (weight[i, f, d] - saw[d])
    pieces += q * times[lines]
  }
  for (d = 1; d <= dims; d++) {
    if (used[lines, d] > capacity[bar[lines], d]) wrong("line " FNR " of the report: the pieces do not fit the bar")
    bars_size[d] += times[lines] * (capacity[bar[lines], d] - saw[d])
  }
  for (i in cap) if (within[lines, i] > cap[i]) wrong("line " FNR " of the report: more than " cap[i] " of item " i)
  bars += times[lines]; bars_of[bar[lines]] += times[lines]; paid += times[lines] * cost[bar[lines]]
}
function add_up(   i, t) {
  for (i = 1; i <= items; i++) if (made[i] + 0 != demand[i]) wrong("item " i ": " made[i] + 0 " pieces in the plan, " demand[i] " are asked for")
  for (t = 1; t <= types; t++) if (limit[t] >= 0 && bars_of[t] + 0 > limit[t]) wrong("bar " t ": " bars_of[t] " in the plan, there are " limit[t])
  if (paid != claimed) wrong("the bars cost " sprintf("%.0f", paid) ", the report says " claimed)
  if (lower != "" && lower + 0 > paid) wrong("the bound is above the cost")
}
function plain_costs(   t) { for (t = 1; t <= types; t++) if (cost[t] != 1) return 0; return 1 }
function headline(   price, gap) {
  if (answer == "infeasible") return "No plan exists for these pieces and bars: this is proved."
  if (claimed == "none") return "No plan was found; none costs less than " grouped(lower) ": this is proved."
  price = plain_costs() ? times_of(bars, "bar") : "Cost " grouped(paid)
  if (answer == "optimal") return price ", proved optimal: no plan " (plain_costs() ? "has fewer bars." : "costs less.")
  if (answer == "packing") return price "; whether less would do is not said."
  gap = paid - lower
  return price "; " (plain_costs() ? "fewer than " grouped(lower) " are" : "less than " grouped(lower) " is") " proved impossible, so at most " (plain_costs() ? times_of(gap, "bar") : grouped(gap)) " (" percent(gap, paid) ") could be saved."
}
function used_bars(   t, text) {
  for (t = 1; t <= types; t++) if (bars_of[t] > 0) text = text (text == "" ? "" : ", ") grouped(bars_of[t]) " of " bar_size(t)
  return text
}
function totals(d,   waste, label) {
  waste = bars_size[d] - pieces_size[d]
  label = dims > 1 ? heading[d] ": " : ""
  return label "bars " shown(bars_size[d], scale[d]) ", pieces " shown(pieces_size[d], scale[d]) ", waste " shown(waste, scale[d]) " (" percent(waste, bars_size[d]) (saw[d] > 0 ? ", saw cuts included)" : ")")
}
function row_text(l,   c, text) {
  for (c = 1; c <= counts[l]; c++) text = text (c > 1 ? " + " : "") grouped(count[l, c]) " x " piece_name(item[l, c], form[l, c])
  return text == "" ? "(empty)" : text
}
function print_plan(   l, d, wide, text) {
  print headline()
  if (!lines) return
  print ""
  for (l = 1; l <= lines; l++) { text[l] = sprintf("%6s x bar %s: %s", grouped(times[l]), bar_size(bar[l]), row_text(l)); if (length(text[l]) > wide) wide = length(text[l]) }
  if (wide > 90) wide = 90
  for (l = 1; l <= lines; l++) printf "%-" wide "s   rest %s\n", text[l], rest_size(l)
  print ""
  print times_of(bars, "bar") " (" used_bars() "), " times_of(pieces, "piece")
  for (d = 1; d <= dims; d++) print totals(d)
}
BEGIN { lines = 0; bars = 0; pieces = 0; paid = 0; answer = ""; lower = ""; claimed = "" }
part == "names" {
  split($0, column, "\t")
  if (column[1] == "dimension") { heading[column[2]] = column[3]; scale[column[2]] = column[4] + 0; saw[column[2]] = column[5] + 0 }
  if (column[1] == "item") name[column[2]] = column[3]
  next
}
part == "instance" { for (n = 1; n <= NF; n++) token[++tokens] = $n; next }
part == "report" && FNR == 1 {
  read_instance(mvp)
  if (misread != "") { wrong("the instance: " misread); exit 1 }
  for (d = 1; d <= dims; d++) { if (!(d in scale) || scale[d] < 1) scale[d] = 1; saw[d] += 0; if (heading[d] == "") heading[d] = "weight " d }
  answer = $1
  if (answer == "optimal" || answer == "packing") claimed = $2
  else if (answer == "bracket") { lower = $2; claimed = $3 }
  else if (answer != "infeasible") { wrong("line 1 of the report: no answer of vpack"); exit 1 }
  next
}
part == "report" && $2 == "type" { read_bins(); next }
part == "report" && $1 == "splits" { next }
part == "report" { wrong("line " FNR " of the report: not a line of bins") }
END {
  if (answer == "" && !differs) wrong("the report is empty")
  if (answer != "" && answer != "infeasible" && claimed != "none") add_up()
  if (differs) exit 1
  print_plan()
  if (svg != "") draw(svg)
}
