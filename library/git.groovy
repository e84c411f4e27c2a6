// git(URL), git(url: URL, branch: 'master', credentialsId: ID): brings the branch of a repository into the folder of the step, and
// gives what `checkout` gives. Wants a node.
//
// Example:
//     node { git url: 'https://example.com/shop.git', branch: 'main' }
def git(given) {
    def asked = argumentsOf(given, 'url')
    return checkout([url: asked.url, branch: asked.branch ?: 'master', credentialsId: asked.credentialsId])
}
