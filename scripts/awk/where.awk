# Where a token stands, and what place of the layout it fills.
# the next token fills the place that is said
function fill(what) {
  if (++place == wanted) meant = what
  return place <= tokens ? token[place] : "(missing)"
}
function vector(what,   d, text) { for (d = 1; d <= dims && d <= 32; d++) text = text " " fill(what (dims > 1 ? " in dimension " d : "")); return text }
# a row of places, the first of which stands at this token
function row(text, first) { if (reading && first <= tokens + 1) print "  " text }
function number_or(t, other) { return t ~ /^[0-9]+$/ ? t + 0 : other }
function read_types(   t, first, types, text) {
  if (!mvp) { first = place + 1; row("capacity" vector("the capacity"), first); return }
  first = place + 1; types = number_or(fill("the number of bin types"), 0); row("bin types " types, first)
  for (t = 1; t <= types && t <= 64 && place <= tokens; t++) {
    first = place + 1; text = "type " t ": capacity" vector("type " t ": the capacity")
    text = text " cost " fill("type " t ": the cost")
    text = text " limit " fill("type " t ": the limit, or -1")
    row(text, first)
  }
}
function read_items(   i, f, n, first, text) {
  first = place + 1; items = number_or(fill("the number of items"), 0); row("items " items, first)
  for (i = 1; i <= items && i <= 1000 && place <= tokens; i++) {
    first = place + 1
    if (!mvp) { text = "item " i ": weight" vector("item " i ": its weight"); row(text " demand " fill("item " i ": its demand"), first); continue }
    n = number_or(fill("item " i ": its number of forms"), 0)
    text = "item " i ": forms " n " demand " fill("item " i ": its demand")
    for (f = 1; f <= n && f <= 64 && place <= tokens; f++) text = text ", form " f ":" vector("item " i " form " f ": its weight")
    row(text, first)
  }
}
function read_caps(   k, r, first) {
  if (place >= tokens) return
  if (token[place + 1] != "caps") { fill("behind the last item, where no place is left but for the word caps"); return }
  first = place + 1; fill("the word caps"); r = number_or(fill("the number of caps"), 0); row("caps " r, first)
  for (k = 1; k <= r && k <= 32 && place <= tokens; k++) { first = place + 1; row("cap " k ": item " fill("cap " k ": the item") " at most " fill("cap " k ": how many in a bin"), first) }
}
function read_all() {
  place = 0
  dims = fill("the number of dimensions"); row("dimensions " dims, 1); dims = number_or(dims, 0)
  read_types(); read_items(); read_caps()
}
function caret(k,   s, p) { for (p = 1; p < column[k]; p++) s = s (substr(text_of[line[k]], p, 1) == "\t" ? "\t" : " "); return s "^" }
function show_line(n) { if (n in text_of) { if (length(text_of[n]) <= 200) printf "%6d: %s\n", n, text_of[n]; else printf "%6d: (a line of %d bytes)\n", n, length(text_of[n]) } }
function show_token(   n) {
  n = line[wanted]
  printf "token %d is line %d, column %d: \"%s\"\n", wanted, n, column[wanted], token[wanted]
  show_line(n - 1); show_line(n)
  if (length(text_of[n]) <= 200) print "        " caret(wanted)
  else printf "        between \"%s\" and \"%s\"\n", token[wanted - 1], token[wanted + 1]
  show_line(n + 1)
  reading = 0; read_all()
  print meant == "" ? "It stands behind the last place of the layout." : "It is read as: " meant "."
}
function show_missing() {
  printf "token %d is missing: the file ends after token %d%s.\n", wanted, tokens, tokens ? ", \"" token[tokens] "\"" : ""
  reading = 0; read_all()
  if (meant != "") print "It would be: " meant "."
  print "Read place by place, so that the row that shifted is seen:"
  reading = 1; read_all()
}
NR == 1 { gsub(/^\357\273\277/, "") }
{
  text_of[NR] = $0; sub(/\r$/, "", text_of[NR])
  at = 1; rest = $0
  while (match(rest, /[^ \t\r]+/)) {
    token[++tokens] = substr(rest, RSTART, RLENGTH); line[tokens] = NR; column[tokens] = at + RSTART - 1
    at += RSTART + RLENGTH - 1; rest = substr(rest, RSTART + RLENGTH)
  }
}
END {
  tokens += 0
  if (wanted <= tokens) show_token()
  else if (wanted == tokens + 1) show_missing()
  else { printf "token %d is not there: the file has %d.\n", wanted, tokens; exit 1 }
}
