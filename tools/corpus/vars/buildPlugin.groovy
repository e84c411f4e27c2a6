// As the handbook's page on shared libraries has it, without its mail.
def call(Map config) {
    node {
        git url: "https://github.com/example/${config.name}-project.git"
        sh 'mvn install'
    }
}
