// `text.replaceAll(pattern, other)`, with a text that stands for itself in place of each match.
//
// Example:
//     echo replaceMatches('a/b', [['set', '/', false]], '-')
def replaceMatches(text, pattern, other) {
    def told = ''
    def at = 0
    while (at <= text.length()) {
        def end = matchesFrom(text, pattern, at) { it }
        if (end >= 0) {
            told += other
        }
        if (end > at) {
            at = end
        } else {
            told += at < text.length() ? text[at] : ''
            at++
        }
    }
    return told
}
