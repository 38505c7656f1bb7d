# The table that scripts/list reads, row by row, and the instance that it becomes.
function refuse(text) {
  if (refused) return
  refused = 1
  print "list: " text > "/dev/stderr"
}
function at(line, text) { refuse("line " line ": " text) }
# what is wrong with a number that is not one
function hint(s) {
  if (s == "") return "a number is missing"
  if (s ~ /^-/) return "\047" s "\047 is below 0"
  if (s ~ /^[0-9]+,[0-9]+$/) return "\047" s "\047 is not a number: write decimals with a point, and thousands without a comma"
  return "\047" s "\047 is not a number"
}
# splits a line into cell[1..n] at the separator; double quotes hold it together
function cells(line, sep,   n, c, i, quoted, text) {
  n = 0; text = ""; quoted = 0
  if (sep == " ") { n = split(line, cell, /[ \t\r]+/); return n }
  for (i = 1; i <= length(line); i++) {
    c = substr(line, i, 1)
    if (quoted && c == "\"" && substr(line, i + 1, 1) == "\"") { text = text c; i++ }
    else if (c == "\"" && (quoted || trim(text) == "")) { quoted = !quoted; if (quoted) text = "" }
    else if (c == sep && !quoted) { cell[++n] = trim(text); text = "" }
    else text = text c
  }
  cell[++n] = trim(text)
  return n
}
function is_name_word(w) { return w ~ /^(name|item|part|piece|label|id|description|article|mark|position|pos)$/ }
function is_quantity_word(w) { return w ~ /^(quantity|qty|count|number|pieces|pcs|demand|amount|units|n|no)$/ }
function read_heading(n,   c, w) {
  for (c = 1; c <= n; c++) {
    w = tolower(cell[c]); sub(/[ (\[].*$/, "", w); sub(/\.$/, "", w)
    if (cell[c] == "") continue
    if (is_quantity_word(w) && !quantity_column) quantity_column = c
    else if (is_name_word(w) && !name_column) name_column = c
    else { dims++; weight_column[dims] = c; heading[dims] = cell[c] }
  }
  if (!quantity_column) at(NR, "no column of the heading is called quantity")
  if (!dims) at(NR, "no column of the heading is a length")
  headed = 1
}
function plain_columns(n) {
  if (n == 2) { dims = 1; weight_column[1] = 1; quantity_column = 2 }
  else if (n == 3 && !is_number(cell[1])) { dims = 1; name_column = 1; weight_column[1] = 2; quantity_column = 3 }
  else if (n == 3) at(NR, "three numbers: put a heading above that says which is the quantity, as `length width quantity`")
  else at(NR, n " columns without a heading: put one above, as `name length width quantity`")
  heading[1] = "length"
}
function read_number(c, what, line) {
  if (c > width) { at(line, what " is missing"); return "" }
  if (!is_number(cell[c])) { at(line, what ": " hint(cell[c])); return "" }
  if (length(cell[c]) > 15 || places_of(cell[c]) > 6) { at(line, what ": \047" cell[c] "\047 has too many digits"); return "" }
  return cell[c]
}
function add_form(i, line,   d, f) {
  f = ++forms[i]
  if (f > 64) at(line, "more than 64 forms")
  if (++all_forms > 8000) at(line, "more than 8,000 rows")
  line_of[i, f] = line
  for (d = 1; d <= dims; d++) {
    weight[i, f, d] = read_number(weight_column[d], "column " heading[d], line)
    if (refused) return
    if (places_of(weight[i, f, d]) > places[d]) places[d] = places_of(weight[i, f, d])
  }
}
# a column of words that is not called a name is one, where none is
function find_names(n,   d, e) {
  found_names = 1
  for (d = 1; d <= dims && !name_column; d++) {
    if (weight_column[d] > n || cell[weight_column[d]] == "" || cell[weight_column[d]] ~ /^[-+0-9.]/) continue
    name_column = weight_column[d]
    for (e = d; e < dims; e++) { weight_column[e] = weight_column[e + 1]; heading[e] = heading[e + 1] }
    dims--
  }
  if (!dims) at(NR, "no column is a length")
}
function add_row(n,   line, q) {
  line = NR; width = n
  q = quantity_column <= n ? cell[quantity_column] : ""
  if (q == "" && items > 0) { add_form(items, line); return }
  if (!is_number(q) || places_of(q) > 0) { at(line, "quantity: " (is_number(q) ? "\047" q "\047 is not whole" : hint(q))); return }
  if (whole(q, 0) > 1000000) { at(line, "quantity: more than 1,000,000"); return }
  if (++items > 1000) { at(line, "more than 1,000 items"); return }
  demand[items] = whole(q, 0); forms[items] = 0; row[items] = line
  add_form(items, line)
  if (refused) return
  name[items] = name_column && name_column <= n ? cell[name_column] : ""
  gsub(/[\t]/, " ", name[items])
  if (name[items] == "") { name[items] = weight[items, 1, 1]; unnamed[items] = 1 }
}
# a plain file of the collection: number of items, capacity, then a weight or a weight and a demand a line
function add_plain(n,   i) {
  width = n
  for (i = 1; i <= n; i++) if (!is_number(cell[i])) { at(NR, hint(cell[i])); return }
  if (!expected_line) { expected = cell[1]; expected_line = NR; if (n > 1) { bar_text[++bar_count] = cell[2] } return }
  if (!bar_count) { bar_text[++bar_count] = cell[1]; return }
  if (n > 2) { at(NR, "more than two numbers"); return }
  rows++
  if (n == 1 && (cell[1] + 0) in at_weight) { demand[at_weight[cell[1] + 0]]++; return }
  if (++items > 1000) { at(NR, "more than 1,000 different weights"); return }
  demand[items] = n == 2 ? cell[2] + 0 : 1
  weight_column[1] = 1; dims = 1; heading[1] = "weight"
  add_form(items, NR); name[items] = cell[1]; unnamed[items] = 1; row[items] = NR
  if (n == 1) at_weight[cell[1] + 0] = items
}
function read_bars(   n, b, part, d, number, given) {
  n = split(ENVIRON["LIST_BARS"], given, "\n")
  for (b = 1; b <= n; b++) if (given[b] != "") bar_text[++bar_count] = given[b]
  if (!bar_count) { refuse("no bar: say --bar LENGTH"); return }
  if (bar_count > 64) { refuse("more than 64 bars"); return }
  for (b = 1; b <= bar_count; b++) {
    n = split(bar_text[b], part, ":")
    cost[b] = n >= 2 ? part[2] : 1; limit[b] = n >= 3 ? part[3] : -1
    if (n > 1) priced = 1
    if (n > 3 || cost[b] !~ /^[0-9]+$/ || limit[b] !~ /^(-1|[0-9]+)$/ || cost[b] + 0 > 2147483647 || limit[b] + 0 > 2147483647) { refuse("--bar " bar_text[b] ": not LENGTH:COST:LIMIT in whole numbers up to 2,147,483,647"); return }
    if (split(part[1], number, "x") != dims) { refuse("--bar " bar_text[b] ": not one number for each of the " dims " weights"); return }
    for (d = 1; d <= dims; d++) {
      if (!is_number(number[d]) || places_of(number[d]) > 6 || length(number[d]) > 15) { refuse("--bar " bar_text[b] ": " hint(number[d])); return }
      capacity[b, d] = number[d]
      if (places_of(number[d]) > places[d]) places[d] = places_of(number[d])
    }
  }
}
function read_kerf() {
  kerf = ENVIRON["LIST_KERF"]
  if (kerf == "") { kerf = "0"; return }
  if (!is_number(kerf) || places_of(kerf) > 6 || length(kerf) > 15) { refuse("--kerf: " hint(kerf)); return }
  if (dims != 1) { refuse("--kerf is for one column of lengths; here are " dims); return }
  if (places_of(kerf) > places[1]) places[1] = places_of(kerf)
}
function read_caps(   n, k, given, i, who, most, found) {
  n = split(ENVIRON["LIST_CAPS"], given, "\n")
  for (k = 1; k <= n; k++) {
    if (given[k] == "") continue
    who = given[k]; most = given[k]
    sub(/:[^:]*$/, "", who); sub(/^.*:/, "", most)
    if (most !~ /^[0-9]+$/ || most + 0 < 1 || most + 0 > 1000000) { refuse("--at-most " given[k] ": not NAME:COUNT with a count from 1 to 1,000,000"); return }
    found = 0
    for (i = 1; i <= items; i++) if (name[i] == who) { if (found) { refuse("--at-most " given[k] ": lines " row[found] " and " row[i] " both have this name"); return } found = i }
    if (!found) { refuse("--at-most " given[k] ": no row has this name"); return }
    if (found in cap) { refuse("--at-most " given[k] ": said twice"); return }
    cap[found] = most + 0; cap_count++
  }
  if (dims + cap_count > 32) refuse("weights and --at-most together are more than 32")
}
# all numbers in whole units: the least scale for each dimension that makes them so
function scale_all(   d, i, f, b, g, p) {
  for (d = 1; d <= dims; d++) {
    p = places[d]; g = power(p)
    for (i = 1; i <= items; i++) for (f = 1; f <= forms[i]; f++) { weight[i, f, d] = whole(weight[i, f, d], p); g = gcd(g, weight[i, f, d]) }
    for (b = 1; b <= bar_count; b++) { capacity[b, d] = whole(capacity[b, d], p); g = gcd(g, capacity[b, d]) }
    saw[d] = d == 1 ? whole(kerf, p) : 0; g = gcd(g, saw[d])
    scale[d] = power(p) / g; saw[d] /= g
    for (i = 1; i <= items; i++) for (f = 1; f <= forms[i]; f++) weight[i, f, d] /= g
    for (b = 1; b <= bar_count; b++) {
      capacity[b, d] = capacity[b, d] / g + saw[d]
      if (capacity[b, d] > 2147483647) { refuse("a bar has more than 2,147,483,647 units after scaling by " scale[d]); return }
    }
    for (i = 1; i <= items; i++) for (f = 1; f <= forms[i]; f++) if (weight[i, f, d] + saw[d] > 2147483647) { at(line_of[i, f], "more than 2,147,483,647 units after scaling by " scale[d]); return }
  }
  for (i = 1; i <= items; i++) for (f = 1; f <= forms[i]; f++) {
    g = 0
    for (d = 1; d <= dims; d++) g += weight[i, f, d]
    if (g == 0) { at(line_of[i, f], "a piece of nothing"); return }
  }
}
function say_all(   i, f, d, b, total, longest, units, text, fits, many) {
  for (i = 1; i <= items; i++) units += demand[i]
  text = grouped(units) " pieces"
  for (d = 1; d <= dims; d++) {
    total = 0; longest = 0
    for (i = 1; i <= items; i++) { total += demand[i] * weight[i, 1, d]; for (f = 1; f <= forms[i]; f++) if (weight[i, f, d] > longest) longest = weight[i, f, d] }
    text = text (dims > 1 ? "; " heading[d] ": greatest " : ", longest ") shown(longest, scale[d]) ", total " shown(total, scale[d]) ", scale " scale[d]
  }
  print "list: " text > "/dev/stderr"
  for (b = 1; b <= bar_count; b++) {
    text = "list: bars of "
    for (d = 1; d <= dims; d++) text = text (d > 1 ? " x " : "") shown(capacity[b, d] - saw[d], scale[d])
    if (priced || bar_count > 1) text = text " for " grouped(cost[b]) (limit[b] >= 0 ? ", at most " grouped(limit[b]) : "")
    if (saw[1] > 0) text = text ", kerf " shown(saw[1], scale[1])
    print text > "/dev/stderr"
  }
  for (i = 1; i <= items; i++) if (i in cap) print "list: at most " grouped(cap[i]) " of " name[i] " in a bar" > "/dev/stderr"
  for (i = 1; i <= items; i++) {
    many = 0
    for (f = 1; f <= forms[i]; f++) for (b = 1; b <= bar_count; b++) {
      fits = 1
      for (d = 1; d <= dims; d++) if (weight[i, f, d] + saw[d] > capacity[b, d]) fits = 0
      many += fits
    }
    if (!many && demand[i]) print "list: line " row[i] ": no bar is long enough for " name[i] > "/dev/stderr"
  }
}
function vector(i, f,   d, text) {
  for (d = 1; d <= dims; d++) text = text (d > 1 ? " " : "") sprintf("%.0f", weight[i, f, d] + saw[d])
  return text
}
function write_all(   i, f, d, b, out, one, text) {
  one = bar_count == 1 && !priced
  for (i = 1; i <= items; i++) if (forms[i] > 1) one = 0
  out = ENVIRON["LIST_WORK"] "/instance." (one ? "vbp" : "mvp")
  print dims (one ? "" : " " bar_count) > out
  for (b = 1; b <= bar_count; b++) {
    text = ""
    for (d = 1; d <= dims; d++) text = text (d > 1 ? " " : "") sprintf("%.0f", capacity[b, d])
    print text (one ? "" : " " cost[b] " " limit[b]) > out
  }
  print items + 0 > out
  for (i = 1; i <= items; i++) {
    if (one) { print vector(i, 1) " " sprintf("%.0f", demand[i]) > out; continue }
    text = forms[i] " " sprintf("%.0f", demand[i])
    for (f = 1; f <= forms[i]; f++) text = text "  " vector(i, f)
    print text > out
  }
  if (cap_count) {
    text = "caps " cap_count
    for (i = 1; i <= items; i++) if (i in cap) text = text "  " i " " sprintf("%.0f", cap[i])
    print text > out
  }
  out = ENVIRON["LIST_WORK"] "/names"
  for (d = 1; d <= dims; d++) print "dimension\t" d "\t" heading[d] "\t" scale[d] "\t" sprintf("%.0f", saw[d]) > out
  for (i = 1; i <= items; i++) print "item\t" i "\t" (unnamed[i] ? "" : name[i]) > out
}
BEGIN { items = 0; dims = 0; bar_count = 0; cap_count = 0; bpplib = ENVIRON["LIST_BPPLIB"] + 0; if (bpplib) dims = 1 }
NR == 1 { sub(/^\357\273\277/, "") }
refused { next }
{ line = trim($0) }
line == "" || line ~ /^#/ { next }
!separator {
  separator = bpplib ? " " : index(line, "\t") ? "\t" : index(line, ";") ? ";" : index(line, ",") ? "," : " "
}
{
  count = cells(line, separator)
  if (bpplib) { add_plain(count); next }
  filled = 0; numbers = 0
  for (c = 1; c <= count; c++) { if (cell[c] != "") filled++; if (is_number(cell[c])) numbers++ }
  if (!filled) next
  if (!started) {
    started = 1
    if (!numbers) { read_heading(count); next }
    plain_columns(count)
  }
  if (headed && !found_names) find_names(count)
  if (!refused) add_row(count)
}
END {
  if (!dims) { dims = 1; heading[1] = "length" }
  if (!refused && bpplib && rows != expected + 0) refuse("line " expected_line ": " expected " rows are announced, and " rows + 0 " are there")
  if (!refused) read_bars()
  if (!refused) read_kerf()
  if (!refused) read_caps()
  if (!refused) scale_all()
  if (refused) exit 1
  say_all()
  write_all()
}
