#!/usr/bin/env bash
# What a long session of edits takes, beside as many whole analyses as it asks for: a list of so many equations is put into a model
# by `add` lines; then places of it are set and cleared, and an equation is dropped and added again, in turn, so many times in all,
# and the model is asked every hundredth time. Instructions are counted by valgrind's callgrind, which repeats; seconds are those of
# the clock, which do not. Usage: bench/desk.sh [FAMILY [SIZE [EDITS]]], mixed, 1000 and 10000 where they are left out; the families are
# those of lists.sh but `dense`, whose lines are too long. COUNT=no leaves the instructions out, which take fifty times as long. program.sh
# says what is to be built first.
set -eu
. "$(dirname "$0")/program.sh"
family=${1:-mixed} size=${2:-1000} edits=${3:-10000}
[ "$family" != dense ] || { echo "no sessions of dense lists" >&2; exit 2; }
asks=$((edits / 100))

equations "$family" "$size" > "$work/list"
awk '$1 == "eq" { $1 = "add 1"; print }' "$work/list" > "$work/added"

# The edits: of each four, one sets a place, one clears it, one drops an equation, and one adds it again as it was.
awk -v size="$size" -v edits="$edits" '
    { line[NR] = $0; name[NR] = $3 }

    END {
        for (k = 0; k < edits; k++) {
            one = 1 + int(k / 4) * 37 % size
            other = 1 + int(k / 4) * 101 % size
            if (k % 4 == 0) print "set 1 " name[one] " x" other "=?"
            else if (k % 4 == 1) print "clear 1 " name[one] " x" other
            else if (k % 4 == 2) print "drop 1 " name[one]
            else print line[one]
            if (k % 100 == 99) print "ask 1"
        }
    }' "$work/added" > "$work/edits"
cat "$work/added" "$work/edits" > "$work/session"

seconds() {
    local input=$1 start
    shift
    start=$(date +%s%N)
    "$program" "$@" < "$input" > "$work/told" || { echo "$* ended with $?" >&2; exit 1; }
    awk -v taken=$(($(date +%s%N) - start)) 'BEGIN { printf "%.2f", taken / 1e9 }'
}

# A row: what was done, the words after the input, how often, and the input.
row() {
    local what=$1 times=$2 input=$3 taken counted
    shift 3
    taken=$(seconds "$input" "$@")
    counted=
    if [ "${COUNT:-yes}" = yes ]; then counted=$(instructions "$input" "$@"); fi
    awk -v what="$what" -v n="$counted" -v s="$taken" -v times="$times" \
        'BEGIN { printf "| %s | %s | %.2f |\n", what, n == "" ? "" : sprintf("%.1f", n * times / 1e6), s * times }'
}

echo "| $family, $size equations | instructions, million | seconds |"
echo "|---|---|---|"
row "the list, put in by \`add\` lines" 1 "$work/added" edit
row "and $edits edits and $asks asks" 1 "$work/session" edit
echo "of its replies $(grep -c '^refused' "$work/told" || true) are refusals, and $(grep -c '^changed' "$work/told") tell of an edit" >&2
row "$asks times \`analyse\` of the list" "$asks" "$work/list" analyse matrix
