// `text.padLeft(size)`, with blanks in front, or with another text.
//
// Example:
//     echo padLeftOf('7', 3, '0')
def padLeftOf(text, size, with) {
    def told = "${text}"
    while (told.length() < size) {
        told = with + told
    }
    return told
}
