#!/bin/sh
# Times the engine: builds crates/bench_engine, and runs it with each family at each number of equations.
# Usage: bench/engine.sh [EQUATIONS ..]; without numbers 250, 500, 1000 and 2000. A line of each run tells the searches and the
# steps, and the next one the processor's seconds and the greatest memory in KiB.
set -e
cd "$(dirname "$0")/../crates/bench_engine"
rt run -- mixed 60 >/dev/null
[ $# -gt 0 ] || set -- 250 500 1000 2000
for family in symbols constants mixed; do
    for equations in "$@"; do
        /usr/bin/time -f "%U s, %M KiB" out/bench_engine "$family" "$equations" 2>&1
    done
done
