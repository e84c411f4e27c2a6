// `value as boolean`.
//
// Example:
//     echo "${truthOf('')}"
def truthOf(value) {
    return value ? true : false
}
