// isUnix(): whether the agent is a Unix machine. All agents are.
//
// Example:
//     if (isUnix()) { echo 'sh' } else { echo 'bat' }
def isUnix() {
    return true
}
