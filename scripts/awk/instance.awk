# The places of an instance, filled from token[1..tokens]: dims, types, capacity[t, d], cost[t], limit[t], items, demand[i],
# forms[i], weight[i, f, d], cap[i]. `misread` says what is wrong with the text, and is empty where nothing is.
function next_place() { return token[++place] }
function read_instance(mvp,   t, d, i, f, k, c) {
  place = 0; misread = ""
  dims = next_place() + 0
  types = mvp ? next_place() + 0 : 1
  if (dims < 1 || dims > 32 || types < 1 || types > 64) { misread = "no such number of dimensions or types"; return }
  for (t = 1; t <= types; t++) {
    for (d = 1; d <= dims; d++) capacity[t, d] = next_place() + 0
    cost[t] = mvp ? next_place() + 0 : 1
    limit[t] = mvp ? next_place() + 0 : -1
  }
  items = next_place() + 0
  if (items > 1000) { misread = "too many items"; return }
  for (i = 1; i <= items; i++) {
    forms[i] = mvp ? next_place() + 0 : 1
    if (mvp) demand[i] = next_place() + 0
    if (forms[i] < 1 || forms[i] > 64) { misread = "no such number of forms"; return }
    for (f = 1; f <= forms[i]; f++) for (d = 1; d <= dims; d++) weight[i, f, d] = next_place() + 0
    if (!mvp) demand[i] = next_place() + 0
  }
  if (place < tokens && next_place() == "caps") {
    k = next_place() + 0
    while (k-- > 0) { c = next_place() + 0; cap[c] = next_place() + 0 }
  }
  if (place != tokens) misread = "the numbers do not end where the places do"
}
