// A stand-in for Jenkins' tools: a folder of each, in the one that the variable TOOLS names.
def call(name) {
    return "${env.TOOLS}/${name}"
}
