# The two published deletions for this kind of sketch, on the lines of book_lines: prints what each estimates for every
# key that is asked for. Both count a put alike; a take lowers the count of a held key. For a key that is not held,
# "lazy" does nothing, and "plus-minus" lowers count and error of the record with the greatest error. Ties go to the
# least key.
function put(s, key,    k, least) {
    if ((s, key) in count) { count[s, key]++; return }
    if (held[s] < width) { held[s]++; count[s, key] = 1; error[s, key] = 0; names[s] = names[s] " " key; return }
    least = extreme(s, count, -1)
    drop(s, least)
    count[s, key] = count[s, least] + 1
    error[s, key] = count[s, least]
    delete count[s, least]
    delete error[s, least]
    names[s] = names[s] " " key
}
function take(s, key,    k) {
    if ((s, key) in count) { count[s, key]--; return }
    if (s == "lazy" || held[s] == 0) return
    k = extreme(s, error, 1)
    count[s, k]--
    error[s, k]--
}
# the key with the greatest (sign 1) or the least (sign -1) value, of these the least key
function extreme(s, values, sign,    n, list, i, best, v) {
    n = split(names[s], list, " ")
    best = ""
    for (i = 1; i <= n; i++) {
        v = values[s, list[i]]
        if (best == "" || sign * v > sign * values[s, best] || (v == values[s, best] && list[i] + 0 < best + 0)) best = list[i]
    }
    return best
}
function drop(s, key,    n, list, i, rest) {
    n = split(names[s], list, " ")
    rest = ""
    for (i = 1; i <= n; i++) if (list[i] != key) rest = rest " " list[i]
    names[s] = rest
}
$1 == "width" { width = $2 }
$1 == "+" { put("lazy", $2); put("plus-minus", $2); live[$2]++ }
$1 == "-" { take("lazy", $2); take("plus-minus", $2); live[$2]-- }
$1 == "?" { print $2, "live", live[$2] + 0, "lazy", count["lazy", $2] + 0, "plus-minus", count["plus-minus", $2] + 0 }
