// usernamePassword(credentialsId: ID, usernameVariable: U, passwordVariable: P): for `withCredentials`. The user's name is the file
// `username` and the password the file `password` of the credential's folder.
//
// Example:
//     withCredentials([usernamePassword(credentialsId: 'shop', usernameVariable: 'U', passwordVariable: 'P')]) { echo 'x' }
def usernamePassword(given) {
    return ["CREDENTIAL_${given.usernameVariable}=${given.credentialsId}/username",
            "CREDENTIAL_${given.passwordVariable}=${given.credentialsId}/password"]
}
