// `from..<to`: the numbers from one up to another and without it, or down to it and without it.
//
// Example:
//     echo "${rangeBelow(0, 3)}"
def rangeBelow(from, to) {
    return from == to ? [] : from < to ? from..(to - 1) : from..(to + 1)
}
