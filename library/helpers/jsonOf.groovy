// The JSON text of a value: maps, lists, texts, numbers, true, false, null; of another value its text. `step` blanks a level, and no
// line of its own for an entry where that is 0.
//
// Example:
//     echo jsonOf([a: [1, null]], 0, 0)
def jsonOf(value, step, level) {
    def kind = kindOf(value)
    if (kind == 'null' || kind == 'number' || kind == 'boolean') {
        return "${value}"
    }
    def blanks = { number ->
        def told = step > 0 ? '\n' : ''
        (step * number).times { told += ' ' }
        return told
    }
    def joined = { open, parts, close ->
        return parts.isEmpty() ? open + close : open + blanks(level + 1) + parts.join(',' + blanks(level + 1)) + blanks(level) + close
    }
    if (kind == 'list') {
        return joined('[', value.collect { jsonOf(it, step, level + 1) }, ']')
    }
    if (kind == 'map') {
        def sign = step > 0 ? ': ' : ':'
        return joined('{', value.collect { key, entry -> jsonOf("${key}", 0, 0) + sign + jsonOf(entry, step, level + 1) }, '}')
    }
    def told = "${value}".replace('\\', '\\\\').replace('"', '\\"').replace('\n', '\\n').replace('\r', '\\r').replace('\t', '\\t')
    return '"' + told.replace('\b', '\\b').replace('\f', '\\f') + '"'
}
