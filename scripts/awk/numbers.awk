# Numbers of tables: decimals as whole numbers of scaled units, and as they are shown.
function trim(s) { gsub(/^[ \t\r]+|[ \t\r]+$/, "", s); return s }
# a number with a point, as digits and how many of them stand behind the point
function is_number(s) { return s ~ /^[0-9]+$/ || s ~ /^[0-9]+\.[0-9]*$/ || s ~ /^\.[0-9]+$/ }
function places_of(s) { if (!index(s, ".")) return 0; sub(/^[^.]*\./, "", s); sub(/0+$/, "", s); return length(s) }
function whole(s, places,   head, tail) {
  head = s; tail = ""
  if (index(s, ".")) { head = substr(s, 1, index(s, ".") - 1); tail = substr(s, index(s, ".") + 1) }
  tail = substr(tail "000000000000", 1, places)
  return (head tail) + 0
}
function power(n,   p) { for (p = 1; n > 0; n--) p *= 10; return p }
function gcd(a, b,   r) { while (b > 0) { r = a - b * int(a / b); a = b; b = r } return a }
function grouped(n,   s, out) {
  s = sprintf("%.0f", n)
  while (length(s) > 3) { out = "," substr(s, length(s) - 2) out; s = substr(s, 1, length(s) - 3) }
  return s out
}
# a whole number of scaled units, in the unit of the table
function shown(n, scale,   rest, tail) {
  rest = n - scale * int(n / scale)
  if (rest == 0) return grouped(n / scale)
  tail = sprintf("%.9f", rest / scale); sub(/^0/, "", tail); sub(/0+$/, "", tail)
  return grouped(int(n / scale)) tail
}
