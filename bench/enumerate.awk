# The least cost of a small .mvp instance, with caps and without limits of types, by plain enumeration: all contents that
# fit some type, and then for each row of demands, from the least up, the cheapest last bin. It shares nothing with vpack.
# Prints the cost, or "none" where no packing exists.

{ for (k = 1; k <= NF; k++) token[++tokens] = $k }

function next_token() { return token[++at] }

function read_instance(    d, t, i, f, n) {
  dims = next_token(); types = next_token()
  for (t = 1; t <= types; t++) {
    for (d = 1; d <= dims; d++) capacity[t, d] = next_token()
    cost[t] = next_token(); next_token()
  }
  items = next_token()
  for (i = 1; i <= items; i++) {
    n = next_token(); demand[i] = next_token(); most[i] = demand[i]
    while (n-- > 0) {
      item_of[++forms] = i
      for (d = 1; d <= dims; d++) weight[forms, d] = next_token()
    }
  }
  if (next_token() == "caps")
    for (n = next_token(); n > 0; n--) { i = next_token(); f = next_token(); if (f < most[i]) most[i] = f }
}

# whether counts[1..forms] fit type t; leaves the units of each item in units[]
function fits(t,    d, f, i, used) {
  for (i = 1; i <= items; i++) units[i] = 0
  for (f = 1; f <= forms; f++) units[item_of[f]] += counts[f]
  for (i = 1; i <= items; i++) if (units[i] > most[i]) return 0
  for (d = 1; d <= dims; d++) {
    used = 0
    for (f = 1; f <= forms; f++) used += counts[f] * weight[f, d]
    if (used > capacity[t, d]) return 0
  }
  return 1
}

# goes to the next counts, and answers whether there are some
function advance(    f) {
  for (f = 1; f <= forms; f++) {
    if (counts[f] < most[item_of[f]]) { counts[f]++; return 1 }
    counts[f] = 0
  }
  return 0
}

# keeps each content of a type once, by its units, with the least cost of a type that it fits
function keep_contents(    t, f, i, key) {
  for (f = 1; f <= forms; f++) counts[f] = 0
  while (advance())
    for (t = 1; t <= types; t++)
      if (fits(t)) {
        key = ""
        for (i = 1; i <= items; i++) key = key " " units[i]
        if (!(key in price)) { keys[++contents] = key; price[key] = cost[t] }
        else if (cost[t] < price[key]) price[key] = cost[t]
      }
}

# the least cost of the rest that stands in rest[1..items], as the number s
function least(s,    c, i, n, part, step, found, value) {
  found = -1
  for (c = 1; c <= contents; c++) {
    n = split(keys[c], part, " ")
    step = 0
    for (i = 1; i <= n && part[i] <= rest[i]; i++) step += part[i] * radix[i]
    if (i > n && best[s - step] >= 0) {
      value = best[s - step] + price[keys[c]]
      if (found < 0 || value < found) found = value
    }
  }
  return found
}

END {
  read_instance()
  keep_contents()
  states = 1
  for (i = 1; i <= items; i++) { radix[i] = states; states *= demand[i] + 1 }
  best[0] = 0
  for (s = 1; s < states; s++) {
    for (i = 1; i <= items; i++) rest[i] = int(s / radix[i]) % (demand[i] + 1)
    best[s] = least(s)
  }
  print best[states - 1] < 0 ? "none" : best[states - 1]
}
