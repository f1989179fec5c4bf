#!/usr/bin/env bash
# What `mixed analyse netlist` and `mixed report netlist` take of circuits of common shapes, and how that grows: ladders of resistors and capacitors, and
# square grids of resistors, each behind a source. Instructions are counted by valgrind's callgrind, which repeats.
# Usage: bench/circuits.sh [ladder|grid [SIZE ..]]; without words ladders of 25, 50 and 100 sections, and grids of 6, 9 and 12 nodes
# a side. program.sh says what is to be built first.
set -eu
. "$(dirname "$0")/program.sh"
. "$(dirname "$0")/shapes.sh"

row() {
    "$1" "$2" > "$work/netlist"
    "$program" analyse netlist < "$work/netlist" > "$work/certificate" || true
    awk -v shape="$1" -v size="$2" -v devices="$(wc -l < "$work/netlist")" \
        -v equations="$(awk '/^shape/ { print $2 }' "$work/certificate")" \
        -v count="$(instructions "$work/netlist" analyse netlist)" -v told="$(instructions "$work/netlist" report netlist)" 'BEGIN {
            printf "| %s | %d | %d | %d | %.1f | %.1f |\n", shape, size, devices, equations, count / 1e6, told / 1e6
        }'
}

echo "| shape | size | devices | equations | analyse, million instructions | report |"
echo "|---|---|---|---|---|---|"
for shape in ${1:-ladder grid}; do
    sizes=${*:2}
    if [ "$shape" = ladder ]; then sizes=${sizes:-25 50 100}; else sizes=${sizes:-6 9 12}; fi
    for size in $sizes; do row "$shape" "$size"; done
done
