// load(FILE): a script cannot read functions while it runs, so this is refused. `tools/prepare` takes the file's functions into the
// script where a variable is declared with `load` of a path that is written out, as in `def helpers = load 'ci/helpers.groovy'`: it
// reads the file beside the Jenkinsfile when it prepares, and not when the build comes to it.
//
// Example:
//     try { load('helpers.groovy') } catch (e) { echo e.message }
def load(file) {
    error "load: the functions of ${file} have to be in the script: see tools/prepare"
}
