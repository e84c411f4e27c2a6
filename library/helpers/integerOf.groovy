// `value as Integer`: null stays null; of a text the number that it spells.
//
// Example:
//     echo "${integerOf('7') + 1}"
def integerOf(value) {
    return value == null ? null : value.toInteger()
}
