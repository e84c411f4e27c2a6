// readJSON(text: TEXT), readJSON(file: FILE), each also with returnPojo: the value that a JSON text spells: maps, lists, texts, whole
// numbers, true, false, null. A file wants a node. A text that is no JSON is an error with the number of the character.
//
// Not as in Jenkins: a number that is not whole, or of more than 32 bits, is an error, since the language has none; and a text of more
// than some thirty thousand characters meets the limit of nodes evaluated.
//
// Example:
//     echo "${readJSON(text: '{"version": [1, 4]}').version[1]}"
def readJSON(given) {
    def text = given.file ? readFile(given.file) : given.text
    def at = 0
    def wrong = { error "readJSON: no JSON at character ${at + 1}" }
    def skip = { while (at < text.length() && ' \t\r\n'.contains(text[at])) { at++ } }
    def see = { sign ->
        skip()
        return at < text.length() && text[at] == sign
    }
    def take = { sign ->
        if (!see(sign)) { wrong() }
        at++
    }
    def string = {
        take('"')
        def told = ''
        while (true) {
            def rest = text.substring(at)
            def end = rest.indexOf('"')
            def back = rest.indexOf('\\')
            if (end < 0) { wrong() }
            if (back < 0 || end < back) {
                at += end + 1
                return told + rest.substring(0, end)
            }
            told += rest.substring(0, back)
            at += back + 1
            if (text[at] == 'u') {
                def digits = text.substring(at + 1, at + 5)
                at += 5
                while (text.substring(at).startsWith('\\u')) {
                    digits += text.substring(at + 2, at + 6)
                    at += 6
                }
                told += charactersOf(digits)
            } else {
                def place = '"\\/bfnrt'.indexOf(text[at])
                if (place < 0) { wrong() }
                told += '"\\/\b\f\n\r\t'[place]
                at++
            }
        }
    }
    def value
    def list = {
        def told = []
        take('[')
        if (!see(']')) {
            told.add(value())
            while (see(',')) {
                at++
                told.add(value())
            }
        }
        take(']')
        return told
    }
    def map = {
        def told = [:]
        def entry = {
            skip()
            def key = string()
            take(':')
            told[key] = value()
        }
        take('{')
        if (!see('}')) {
            entry()
            while (see(',')) {
                at++
                entry()
            }
        }
        take('}')
        return told
    }
    def word = {
        def begin = at
        while (at < text.length() && !' \t\r\n,]}'.contains(text[at])) { at++ }
        def told = text.substring(begin, at)
        if (['true', 'false', 'null'].contains(told)) {
            return told == 'null' ? null : told == 'true'
        }
        try {
            return told.toInteger()
        } catch (Exception e) {
            at = begin
            wrong()
        }
    }
    value = {
        if (see('{')) { return map() }
        if (see('[')) { return list() }
        return see('"') ? string() : word()
    }
    def told = value()
    skip()
    if (at < text.length()) { wrong() }
    return told
}
