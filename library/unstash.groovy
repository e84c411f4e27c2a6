// unstash(NAME), unstash(name: NAME): puts the files of a stash of this build into the folder of the step. Wants a node.
//
// Example:
//     buildFolder = '/tmp/controller/build'
//     node { sh 'echo 1 > a.txt'; stash 'all'; dir('sub') { unstash 'all'; sh 'cat a.txt' } }
def unstash(given) {
    def name = argumentsOf(given, 'name').name
    def from = quoted("${buildFolder}/stashes/${name}.tar")
    def code = sh(script: "#!/bin/sh\ntest -e ${from} || exit 9\nexec tar -xf ${from}", returnStatus: true)
    if (code == 9) {
        error "No such saved stash ‘${name}’"
    }
    if (code != 0) {
        error "unstash: the step ended with ${code}"
    }
}
