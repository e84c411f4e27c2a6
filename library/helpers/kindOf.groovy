// The kind of a value: 'null', 'boolean', 'number', 'text', 'list', 'map', 'throwable' or 'closure'. Each kind is told by a method that
// no other kind has.
//
// Example:
//     echo "${kindOf([1])} ${kindOf('x')} ${kindOf([a: 1])}"
def kindOf(value) {
    if (value == null) {
        return 'null'
    }
    if (answers { value.containsKey('') }) {
        return 'map'
    }
    if (answers { value.length() }) {
        return 'text'
    }
    if (answers { value.isEmpty() }) {
        return 'list'
    }
    if (answers { value.intdiv(1) }) {
        return 'number'
    }
    if (value == true || value == false) {
        return 'boolean'
    }
    return answers { value.getMessage() } ? 'throwable' : 'closure'
}
