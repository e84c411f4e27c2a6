// `value as int`: of a number itself, of a text the number that it spells; null throws.
//
// Example:
//     echo "${intOf('7') + 1}"
def intOf(value) {
    return value.toInteger()
}
