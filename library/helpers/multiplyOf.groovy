// `a * n`: of numbers the product, of a text or a list so many of it behind each other.
//
// Example:
//     echo multiplyOf('=', 20)
def multiplyOf(value, number) {
    def kind = kindOf(value)
    if (kindOf(number) != 'number' || kind != 'list' && kind != 'text') {
        return value * number
    }
    def told = kind == 'list' ? [] : ''
    number.times { told = told + value }
    return told
}
