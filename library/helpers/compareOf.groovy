// `a <=> b`: -1, 0 or 1; null is less than all else.
//
// Example:
//     echo "${compareOf(1, 2)}"
def compareOf(a, b) {
    if (a == null || b == null) {
        return a == b ? 0 : a == null ? -1 : 1
    }
    return a < b ? -1 : a == b ? 0 : 1
}
