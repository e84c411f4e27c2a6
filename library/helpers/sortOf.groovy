// `list.sort()`, `list.sort { .. }`: the list itself, sorted, entries that are alike in their order. A closure of one parameter gives
// what is compared, one of two a number.
//
// Example:
//     echo "${sortOf([2, 1], null)}"
def sortOf(list, body) {
    def isLess = { a, b -> a < b }
    if (body != null && answers { body(list[0], list[0]) }) {
        isLess = { a, b -> body(a, b) < 0 }
    } else if (body != null) {
        isLess = { a, b -> body(a) < body(b) }
    }
    for (int at = 1; at < list.size(); at++) {
        def entry = list[at]
        def to = at
        while (to > 0 && isLess(entry, list[to - 1])) {
            list[to] = list[to - 1]
            to--
        }
        list[to] = entry
    }
    return list
}
