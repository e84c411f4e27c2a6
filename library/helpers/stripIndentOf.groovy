// `text.stripIndent()`: the lines without the blanks that all of them begin with; a line of blanks alone does not count.
//
// Example:
//     echo stripIndentOf('  a\n    b')
def stripIndentOf(text) {
    def least = -1
    def lines = splitLinesOf(text)
    for (line in lines) {
        def front = line.length() - (line + 'x').trim().length() + 1
        if (line.trim() != '' && (least < 0 || front < least)) {
            least = front
        }
    }
    return lines.collect { dropOf(it, least < 0 ? 0 : least) }.join('\n')
}
