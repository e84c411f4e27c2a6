// `value[from..to]` of a text or a list, and `value[from..<to]` where `isWhole` is false. A negative place counts from the end, and a
// range that falls gives them in that order. A place outside throws.
//
// Example:
//     echo slice('release-1.4', 8, -1, true)
def slice(value, from, to, isWhole) {
    def size = value.size()
    def first = from < 0 ? from + size : from
    def last = to < 0 ? to + size : to
    if (!isWhole && from == to) {
        return kindOf(value) == 'text' ? '' : []
    }
    if (!isWhole) {
        last = first <= last ? last - 1 : last + 1
    }
    if (first < 0 || first >= size || last < 0 || last >= size) {
        value.substring(0, size + 1)
    }
    def told = (first..last).collect { value[it] }
    return kindOf(value) == 'text' ? told.join('') : told
}
