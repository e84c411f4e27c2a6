// `text.isNumber()`: whether it spells a number, whole or with a fraction.
//
// Example:
//     echo "${isNumberOf('1.5')} ${isNumberOf('x')}"
def isNumberOf(text) {
    def parts = text.trim().tokenize('.')
    def isWhole = parts.size() == 1 && answers { parts[0].toInteger() }
    def isBroken = parts.size() == 2 && answers { parts[0].toInteger() } && answers { "1${parts[1]}".toInteger() }
    return isWhole || isBroken
}
