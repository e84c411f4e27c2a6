// `value as String`: null stays null.
//
// Example:
//     echo textOf(7)
def textOf(value) {
    return value == null ? null : "${value}"
}
