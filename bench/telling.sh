#!/usr/bin/env bash
# How many instructions `mixed report matrix` and `mixed plan matrix` take for an equation list, beside those of `mixed analyse
# matrix`.
# Usage: bench/telling.sh [FAMILY [EQUATIONS ..]]; without words dense lists of 250, constants of 500, and mixed and symbols of
# 1000 (see lists.sh). program.sh says what is to be built first.
set -eu
. "$(dirname "$0")/program.sh"

row() {
    local family=$1 size=$2 made told planned
    equations "$family" "$size" > "$work/list"
    made=$(instructions "$work/list" analyse matrix)
    told=$(instructions "$work/list" report matrix)
    planned=$(instructions "$work/list" plan matrix)
    awk -v family="$family" -v size="$size" -v made="$made" -v told="$told" -v planned="$planned" 'BEGIN {
        printf "| %s | %d | %.1f | %.1f | %.2f | %.1f | %.2f |\n", family, size, made / 1e6, told / 1e6, told / made,
            planned / 1e6, planned / made
    }'
}

echo "| family | equations | analyse, million | report, million | ratio | plan, million | ratio |"
echo "|---|---|---|---|---|---|---|"
for family in ${1:-dense constants mixed symbols}; do
    sizes=${*:2}
    case $family in dense) sizes=${sizes:-250} ;; constants) sizes=${sizes:-500} ;; esac
    for size in ${sizes:-1000}; do row "$family" "$size"; done
done
