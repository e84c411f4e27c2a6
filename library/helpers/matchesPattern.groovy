// `text ==~ pattern` with `isWhole`, and else whether a part of the text matches, as `text =~ pattern` as a condition.
//
// Example:
//     echo "${matchesPattern('v1', [['set', 'v', false], ['set', '0123456789', false]], true)}"
def matchesPattern(text, pattern, isWhole) {
    if (text == null) {
        return false
    }
    def given = "${text}"
    if (isWhole) {
        return matchesFrom(given, pattern, 0) { it == given.length() ? it : -1 } >= 0
    }
    for (int at = 0; at <= given.length(); at++) {
        if (matchesFrom(given, pattern, at) { it } >= 0) {
            return true
        }
    }
    return false
}
