// The characters of which hexadecimal digits tell the UTF-16 form, four for each number. Wants a node where one is not of ASCII.
//
// Example:
//     echo charactersOf('00410042')
def charactersOf(digits) {
    def ascii = ' !"#$%&\'()*+,-./0123456789:;<=>?@ABCDEFGHIJKLMNOPQRSTUVWXYZ[\\]^_`abcdefghijklmnopqrstuvwxyz{|}~'
    def told = ''
    for (int at = 0; at < digits.length(); at += 4) {
        def number = 0
        for (digit in digits.substring(at, at + 4).toLowerCase()) {
            number = number * 16 + '0123456789abcdef'.indexOf(digit)
        }
        def place = number < 32 || number > 126 ? [9, 10, 13].indexOf(number) : -1
        if (number < 32 && place < 0 || number > 126) {
            def bytes = ''
            for (int by = 0; by < digits.length(); by += 2) {
                bytes += " 0x${digits.substring(by, by + 2)}"
            }
            return sh(returnStdout: true, script: """#!/bin/sh -e
for byte in${bytes}; do printf "\\\\\$(printf %o "\$byte")"; done | iconv -f UTF-16BE -t UTF-8""")
        }
        told += place >= 0 ? '\t\n\r'[place] : ascii[number - 32]
    }
    return told
}
