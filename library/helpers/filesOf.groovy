// A line of shell that prints the files below the folder that patterns take and other patterns do not, one on each line, sorted; with
// `usual` those are left out that Jenkins leaves out by default. A name with a line feed in it is not told rightly.
//
// Example:
//     node { sh 'mkdir -p out; touch out/a.xml b.xml'; sh filesOf('**/*.xml', 'b*', true) }
def filesOf(includes, excludes, usual) {
    def left = excludes ?: ''
    if (usual) {
        left += ',**/.git,**/.git/**,**/.gitattributes,**/.gitignore,**/.gitmodules,**/.svn,**/.svn/**,**/CVS,**/CVS/**'
        left += ',**/*~,**/.DS_Store'
    }
    def files = "find . ! -type d -print | sed 's|^\\./||' | LC_ALL=C sort | { grep -E ${quoted(antPattern(includes))} || :; }"
    return left ? "${files} | { grep -vE ${quoted(antPattern(left))} || :; }" : files
}
