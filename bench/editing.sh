#!/usr/bin/env bash
# What an edit of one equation takes beside a whole analysis: an equation is added, one in the middle is removed, or it is
# changed, by crates/bench_update, whose instructions without any edit are taken away; `analyse` is `mixed analyse` on the same
# input. Instructions are counted by valgrind's callgrind, which repeats; searches, looks and pivots are those after the edit.
# Usage: bench/editing.sh [FAMILY [SIZE ..]]; without words mixed, symbols and constants of 1,000, 2,000 and 4,000 equations, and
# grids of resistors of 9 and 12 nodes a side. program.sh says what is to be built first; EDITS is the other program, or
# crates/bench_update/out/bench_update, which `rt run` in that folder builds.
set -eu
. "$(dirname "$0")/program.sh"
. "$(dirname "$0")/shapes.sh"
edits=${EDITS:-$(cd "$(dirname "$0")/../crates" && pwd)/bench_update/out/bench_update}
test -x "$edits" || { echo "no $edits: see crates/bench_update" >&2; exit 1; }

# The instructions of the program of edits with these words on the input.
counted() {
    valgrind --tool=callgrind --callgrind-out-file=/dev/null "$edits" "$@" < "$work/input" > "$work/told" 2> "$work/counts"
    awk '/Collected/ { print $4 }' "$work/counts"
}

row() {
    local family=$1 size=$2 kind=matrix tableau=sparse analysed nothing edit taken
    case $family in
    resistors) kind=netlist; grid "$size" > "$work/input" ;;
    *) equations "$family" "$size" > "$work/input" ;;
    esac
    analysed=$(instructions "$work/input" analyse "$kind")
    nothing=$(counted "$tableau" "$kind" nothing)
    for edit in added removed changed; do
        taken=$(counted "$tableau" "$kind" "$edit")
        awk -v family="$family" -v size="$size" -v edit="$edit" -v taken=$((taken - nothing)) -v analysed="$analysed" \
            -v told="$(cat "$work/told")" 'BEGIN {
                printf "| %s | %d | %s | %.2f | %.1f | %.3f | %s |\n", family, size, edit, taken / 1e6, analysed / 1e6,
                    taken / analysed, told
            }'
    done
}

echo "| family | size | edit | edit, million | analyse, million | ratio | after the edit |"
echo "|---|---|---|---|---|---|---|"
for family in ${1:-mixed symbols constants resistors}; do
    sizes=${*:2}
    if [ "$family" = resistors ]; then sizes=${sizes:-9 12}; fi
    for size in ${sizes:-1000 2000 4000}; do row "$family" "$size"; done
done
