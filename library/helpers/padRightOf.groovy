// `text.padRight(size)`, with blanks behind, or with another text.
//
// Example:
//     echo padRightOf('7', 3, '.')
def padRightOf(text, size, with) {
    def told = "${text}"
    while (told.length() < size) {
        told = told + with
    }
    return told
}
