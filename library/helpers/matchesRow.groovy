// `matchesFrom` for a part that repeats one character: the longest row of it first.
//
// Example:
//     echo "${matchesRow('aab', ['repeat', [['set', 'a', false]], 1, 9], [], 0) { it }}"
def matchesRow(text, part, rest, at, then) {
    def set = part[1][0]
    def size = 0
    while (size < part[3] && at + size < text.length() && set[1].contains(text[at + size]) != set[2]) {
        size++
    }
    while (size >= part[2]) {
        def end = matchesFrom(text, rest, at + size, then)
        if (end >= 0) {
            return end
        }
        size--
    }
    return -1
}
