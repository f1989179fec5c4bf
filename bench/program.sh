# For the scripts that source this: the program, which stands in $program, a folder for their files, $work, and the lists of
# lists.sh. Build the program first: (cd crates/mixed && rt run -- analyse matrix < ../../examples/regular.txt)
export LC_ALL=C
program=${PROGRAM:-$(cd "$(dirname "$0")/../crates" && pwd)/mixed/out/mixed}
test -x "$program" || { echo "no $program: see bench/program.sh" >&2; exit 1; }
work=$(mktemp -d)
trap 'rm -rf "$work"' EXIT
. "$(dirname "$0")/lists.sh"

# The instructions of the program with these words on a file, whatever it ends with, as valgrind's callgrind counts them.
instructions() {
    local input=$1
    shift
    valgrind --tool=callgrind --callgrind-out-file=/dev/null "$program" "$@" < "$input" > /dev/null 2> "$work/counts" || true
    awk '/Collected/ { print $4 }' "$work/counts"
}
