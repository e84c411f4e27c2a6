// Whether a closure ends without an exception: answers { value.trim() }. Errors, as an unknown step, go through.
//
// Example:
//     echo "${answers { 'x'.trim() }} ${answers { 1.trim() }}"
def answers(body) {
    try {
        body()
        return true
    } catch (Exception e) {
        return false
    }
}
