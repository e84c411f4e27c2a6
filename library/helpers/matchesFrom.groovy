// Where a match of a pattern ends that begins at a place and with whose end `then` goes on to a place that it gives; -1 where none does.
// A pattern is a list of parts: ['set', CHARACTERS, IS_WITHOUT], ['begin'], ['end'], ['any', PATTERN..], ['repeat', PATTERN, LEAST, MOST].
//
// Example:
//     echo "${matchesFrom('aab', [['repeat', [['set', 'a', false]], 1, 9]], 0) { it }}"
def matchesFrom(text, pattern, at, then) {
    if (pattern.isEmpty()) {
        return then(at)
    }
    def part = pattern[0]
    def rest = dropOf(pattern, 1)
    def kind = part[0]
    if (kind == 'begin') {
        return at == 0 ? matchesFrom(text, rest, at, then) : -1
    }
    if (kind == 'end') {
        return ['', '\n', '\r\n'].contains(text.substring(at)) ? matchesFrom(text, rest, at, then) : -1
    }
    if (kind == 'set') {
        return at < text.length() && part[1].contains(text[at]) != part[2] ? matchesFrom(text, rest, at + 1, then) : -1
    }
    if (kind == 'any') {
        for (inner in dropOf(part, 1)) {
            def end = matchesFrom(text, inner, at) { matchesFrom(text, rest, it, then) }
            if (end >= 0) {
                return end
            }
        }
        return -1
    }
    if (part[1].size() == 1 && part[1][0][0] == 'set') {
        return matchesRow(text, part, rest, at, then)
    }
    if (part[3] > 0) {
        def less = ['repeat', part[1], part[2] > 0 ? part[2] - 1 : 0, part[3] - 1]
        def end = matchesFrom(text, part[1], at) { it > at ? matchesFrom(text, [less] + rest, it, then) : -1 }
        if (end >= 0) {
            return end
        }
    }
    return part[2] > 0 ? -1 : matchesFrom(text, rest, at, then)
}
