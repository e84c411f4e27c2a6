// The causes of an interruption, of which there is one: an input that was rejected. Each has a `shortDescription`.
//
// Example:
//     try { error 'x' } catch (e) { echo "${answers { causesOf(e) }}" }
def causesOf(thrown) {
    if (!isThrown(thrown, ['org.jenkinsci.plugins.workflow.steps.FlowInterruptedException'])) {
        throw new Exception("No such property: causes of ${thrown}")
    }
    return [[shortDescription: thrown.message]]
}
