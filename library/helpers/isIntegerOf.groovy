// `text.isInteger()`.
//
// Example:
//     echo "${isIntegerOf('12')}"
def isIntegerOf(text) {
    return answers { text.toInteger() }
}
