// Whether a throwable is of one of the classes: its text begins with the name of its class.
//
// Example:
//     try { error 'x' } catch (e) { echo "${isThrown(e, ['hudson.AbortException'])}" }
def isThrown(thrown, classes) {
    return classes.any { "${thrown}" == it || "${thrown}".startsWith("${it}: ") }
}
