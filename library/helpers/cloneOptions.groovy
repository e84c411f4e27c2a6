// What the extensions of a `checkout` ask for: words of `git fetch`, and lines of shell before it (`folder`) and behind it (`clean`).
//
// Example:
//     echo cloneOptions([['$class': 'CloneOption', depth: 1, noTags: true]]).words
def cloneOptions(extensions) {
    def asked = [words: '--force --tags', folder: ':', clean: ':']
    for (extension in extensions) {
        def kind = extension['$class']
        if (kind == 'CloneOption') {
            def depth = extension.depth || extension.shallow ? " --depth ${extension.depth ?: 1}" : ''
            asked.words = (extension.noTags ? '--force --no-tags' : '--force --tags') + depth
        } else if (kind == 'RelativeTargetDirectory') {
            def folder = quoted(extension.relativeTargetDir)
            asked.folder = "mkdir -p -- ${folder}\ncd -- ${folder}"
        } else if (kind == 'CleanBeforeCheckout' || kind == 'CleanCheckout') {
            asked.clean = 'git clean -qfdx'
        } else if (kind != 'LocalBranch') {
            error "checkout: the extension ${kind} is not known"
        }
    }
    return asked
}
