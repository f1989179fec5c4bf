#!/bin/sh
# How many bytes a second the reader of equation lists takes, beside `wc -w` on the same file, for inputs of 1, 2, 4 and
# 8 MiB: the best of five runs each. Build the program first: cd crates/bench_reader && rt run < stdin
set -eu
here=$(cd "$(dirname "$0")" && pwd)
program=$here/../crates/bench_reader/out/bench_reader
. "$here/timing.sh"
needs_program
input=$(mktemp)
trap 'rm -f "$input"' EXIT

# Equations of 2 KiB each, so that 4,096 of them are 8 MiB: signs, fractions and decimals at rising unknowns.
equations() {
    awk -v count="$1" 'BEGIN {
        split("1 -1 2.5 -1/2 +3 0.125", values, " ")
        for (e = 1; e <= count; e++) {
            line = "eq e" e
            for (u = 1 + e * 7 % 3800; length(line) < 2030; u++) line = line " x" u "=" values[1 + (e + u) % 6]
            print line
        }
    }'
}

echo "MiB      bytes   reader bytes/s   wc -w bytes/s   reader / wc"
for size in 1 2 4 8; do
    equations $((size * 512)) > "$input"
    bytes=$(wc -c < "$input")
    awk -v size="$size" -v bytes="$bytes" -v read="$(shortest 5 "$program")" -v count="$(shortest 5 wc -w)" 'BEGIN {
        printf "%3d %10d %16.0f %15.0f %13.2f\n", size, bytes, bytes * 1e9 / read, bytes * 1e9 / count, count / read
    }'
done
