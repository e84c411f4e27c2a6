// A stand-in for functions of the shared library of Apache Maven: names of labels and tools.
def labelForOS(os) {
    return os == 'windows' ? 'Windows' : 'ubuntu'
}

def nodeSelection(label) {
    return label
}

def jdkFromVersion(os, version) {
    return "jdk_${version}_latest"
}

def mvnFromVersion(os, version) {
    return "maven_${version}_latest"
}
