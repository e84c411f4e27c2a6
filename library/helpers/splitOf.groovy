// `text.split()`, and `text.split(separator)` with a pattern: the parts, without empty ones at the end. Without a pattern the parts
// between blanks.
//
// Example:
//     echo "${splitOf('a,,b', [['set', ',', false]])}"
def splitOf(text, pattern) {
    if (pattern == null) {
        return text.tokenize()
    }
    def told = []
    def begin = 0
    def at = 0
    while (at < text.length()) {
        def end = matchesFrom(text, pattern, at) { it }
        if (end > at) {
            // A match at the front gives an empty part, as a match of something does in Java.
            told.add(text.substring(begin, at))
            begin = end
            at = end
        } else {
            at++
        }
    }
    told.add(text.substring(begin))
    def size = told.size()
    while (size > 1 && told[size - 1] == '') {
        size--
    }
    return takeOf(told, size)
}
