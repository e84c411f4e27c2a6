// A stand-in for the build of the shared library of Apache Maven: one build for each pair of a machine and a Java.
def call(Map params = [:]) {
    def oses = params.containsKey('os') ? params.os : ['linux']
    def jdks = params.containsKey('jdks') ? params.jdks : ['8', '11']
    Map tasks = [:]
    for (os in oses) {
        for (jdk in jdks) {
            def name = "${os}-jdk${jdk}"
            tasks[name] = {
                node(jenkinsEnv.labelForOS(os)) {
                    stage("Checkout ${name}") {
                        checkout scm
                    }
                    stage("Build ${name}") {
                        withEnv(["JAVA_HOME=${tool jenkinsEnv.jdkFromVersion(os, jdk)}"]) {
                            sh 'mvn clean verify -B'
                        }
                        junit testResults: '**/target/surefire-reports/*.xml', allowEmptyResults: true
                    }
                }
            }
        }
    }
    parallel(tasks)
    jenkinsNotify()
}
