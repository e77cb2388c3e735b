# For the examples that show what they run, each of which reads this file: the program on the path, a folder of the example's own, and
# `run`, which shows a command and runs it. The first word is the program.
PATH=$(dirname "$(realpath "$1")"):$PATH
folder=$(mktemp -d)
trap 'rm -r "$folder"' EXIT
cd "$folder"

run() {
    printf '$ %s\n' "$1"
    sh -c "$1" || echo "(status $?)"
}
