# shellcheck shell=sh disable=SC2034,SC2154
# What the tests of clients share: the C library and the program that they test with, as `library` and `program`. It is read with `.`, and not run.
#
#     clients/NAME/tests/run                    with the quick ones, which are built if need be
#     clients/NAME/tests/run FOLDER PROGRAM     FOLDER is where `tools/lib` has put the library, PROGRAM is `xth`
top=$(cd "$here/../../.." && pwd)

# ends where what a test needs is not there: left_out WHAT
left_out() {
    echo "left out: $1 is not there" >&2
    exit 77
}

find_built() {
    case $# in
    0)
        library=$("$top/tools/lib" --unproved)
        program=$("$top/tools/xth" --unproved --path)
        ;;
    2)
        library=$(realpath "$1")
        program=$(realpath "$2")
        ;;
    *)
        sed -n 's/^#     \(clients.*\)/    \1/p' "$top/clients/built.sh" >&2
        exit 2
        ;;
    esac
}
