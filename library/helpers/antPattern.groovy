// An extended regular expression for patterns as Ant has them, with commas between: `*` and `?` stand within a name, `**` for any
// folders, and a pattern that ends with `/` for all below it.
//
// Example:
//     echo antPattern('**/*.xml, out/')
def antPattern(patterns) {
    def expressions = patterns.tokenize(',').collect { pattern ->
        def rest = pattern.trim()
        if (rest.endsWith('/')) {
            rest = rest + '**'
        }
        if (rest == '**') {
            return '.*'
        }
        for (sign in ['\\', '.', '+', '(', ')', '[', ']', '{', '}', '^', '$', '|']) {
            rest = rest.replace(sign, '\\' + sign)
        }
        // Marks stand for what is put in place of stars, so that no star of an expression is replaced.
        rest = rest.replace('/**/', '\u0001').replace('?', '[^/]')
        if (rest.startsWith('**/')) {
            rest = '\u0002' + rest.substring(3)
        }
        if (rest.endsWith('/**')) {
            rest = rest.substring(0, rest.length() - 3) + '\u0003'
        }
        rest = rest.replace('**', '*').replace('*', '[^/]*')
        return rest.replace('\u0001', '/(.*/)?').replace('\u0002', '(.*/)?').replace('\u0003', '(/.*)?')
    }
    return '^(' + expressions.join('|') + ')$'
}
