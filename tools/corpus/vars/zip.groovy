// A stand-in for the step of the plugin Pipeline Utility Steps.
def call(given) {
    sh "zip -q -r '${given.zipFile}' '${given.dir}'"
    if (given.archive) {
        archiveArtifacts given.zipFile
    }
}
