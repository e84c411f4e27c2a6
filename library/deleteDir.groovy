// deleteDir(): removes the folder of the step with all that is in it. The next step makes it again. Wants a node.
//
// Example:
//     node { dir('out') { sh 'touch a .b'; deleteDir() } }
def deleteDir() {
    sh '#!/bin/sh -e\nfolder=$PWD\ncd /\nrm -rf -- "$folder"'
}
