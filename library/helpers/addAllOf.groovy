// `list.addAll(other)`: true; the list has the entries of the other behind.
//
// Example:
//     def l = [1]
//     addAllOf(l, [2]); echo "${l}"
def addAllOf(list, other) {
    for (entry in other) {
        list.add(entry)
    }
    return !other.isEmpty()
}
