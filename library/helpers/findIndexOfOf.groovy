// `list.findIndexOf { .. }`: the place of the first entry that the closure takes, or -1.
//
// Example:
//     echo "${findIndexOfOf([1, 2]) { it > 1 }}"
def findIndexOfOf(list, body) {
    for (int at = 0; at < list.size(); at++) {
        if (body(list[at])) {
            return at
        }
    }
    return -1
}
