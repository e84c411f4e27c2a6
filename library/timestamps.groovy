// timestamps { .. }: runs its body. The log has no times.
//
// Example:
//     timestamps { echo 'x' }
def timestamps(body) {
    return body()
}
