#!/bin/sh
# Times the lattice of minimisers: builds crates/bench_lattice, and runs it with each shape at each number of places.
# Usage: bench/lattice.sh [PLACES ..]; without numbers 1024, 2048, 4096 and 8192. A line of each run tells the seconds and
# the greatest memory in KiB.
set -e
cd "$(dirname "$0")/../crates/bench_lattice"
rt run -- chain 300 >/dev/null
[ $# -gt 0 ] || set -- 1024 2048 4096 8192
for shape in chain ring antichain dense halves; do
    for places in "$@"; do
        /usr/bin/time -f "%e s, %M KiB" out/bench_lattice "$shape" "$places"
    done
done
