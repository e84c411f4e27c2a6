// A stand-in for the build of a plugin by the shared library of Apache Maven.
def call(Map params = [:]) {
    asfMavenTlpStdBuild(os: ['linux'], jdks: ['8'])
}
