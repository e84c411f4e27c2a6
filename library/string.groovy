// string(credentialsId: ID, variable: V): for `withCredentials`. The value is the file `secret` of the credential's folder.
//
// Example:
//     withCredentials([string(credentialsId: 'token', variable: 'TOKEN')]) { echo 'x' }
def string(given) {
    return ["CREDENTIAL_${given.variable}=${given.credentialsId}/secret"]
}
