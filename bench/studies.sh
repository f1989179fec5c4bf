#!/usr/bin/env bash
# What `mixed values`, `mixed solve` and `mixed conflict` take for an equation list, beside `mixed analyse` and `mixed report`: seconds of the
# clock, which do not repeat, and instructions, counted by valgrind's callgrind, which do, with their ratio to those of `analyse`. The head for `solve` is what `values` writes, with a
# right side for each equation. Usage: bench/studies.sh [FAMILY [EQUATIONS ..]]; without words mixed, symbols, grid, blocks and band of
# 1000. The families are those of bands.sh, and
# resistors, grids of so many nodes a side (shapes.sh), of which all right sides are 0.
# COUNT=no leaves the instructions out, which take fifty times as long. program.sh says what is to be built first.
set -eu
. "$(dirname "$0")/program.sh"
. "$(dirname "$0")/bands.sh"
. "$(dirname "$0")/shapes.sh"

# What a command takes: seconds, and millions of instructions with their share of those of `analyse`.
taken() {
    local input=$1 clock count
    shift
    clock=$(seconds "$input" "$@")
    if [ "${COUNT:-yes}" = no ]; then
        printf ' %s s |' "$clock"
        return
    fi
    count=$(instructions "$input" "$@")
    [ "$1" != analyse ] || base=$count
    awk -v clock="$clock" -v count="$count" -v base="$base" 'BEGIN { printf " %s s, %.1f M, %.2f |", clock, count / 1e6, count / base }'
}

row() {
    local family=$1 size=$2 kind=matrix
    case $family in
        resistors) kind=netlist; grid "$size" > "$work/list" ;;
        *) made "$family" "$size" > "$work/list" ;;
    esac
    printf '| %s | %d |' "$family" "$size"
    taken "$work/list" analyse "$kind"
    taken "$work/list" report "$kind"
    taken "$work/list" values "$kind"
    "$program" values "$kind" < "$work/list" | grep '^value' > "$work/problem" || true
    awk '$1 == "eq" { print "right " $2 " " NR % 100 }' "$work/list" >> "$work/problem"
    { echo model; cat "$work/list"; } >> "$work/problem"
    taken "$work/problem" solve "$kind"
    taken "$work/list" conflict "$kind"
    echo
}

base=1
echo "| family | equations | analyse | report | values | solve | conflict |"
echo "|---|---|---|---|---|---|---|"
for family in ${1:-mixed symbols grid blocks band}; do
    sizes=${*:2}
    for size in ${sizes:-1000}; do row "$family" "$size"; done
done
