// A stand-in for the message of the shared library of Apache Maven.
def call() {
    echo "notified of ${currentBuild.currentResult}"
}
