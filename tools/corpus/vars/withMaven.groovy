// A stand-in for the step of the plugin Pipeline Maven: the Java and the options that it sets.
def call(given, body) {
    withEnv(["JAVA_HOME=${env.TOOLS}/${given.jdk}", "MAVEN_OPTS=${given.mavenOpts}"]) {
        body()
    }
}
