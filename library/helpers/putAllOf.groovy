// `map.putAll(other)`.
//
// Example:
//     def m = [a: 1]
//     putAllOf(m, [b: 2]); echo "${m}"
def putAllOf(map, other) {
    for (entry in other) {
        map[entry.key] = entry.value
    }
    return null
}
