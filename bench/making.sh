#!/usr/bin/env bash
# How many instructions `mixed make N` takes, and how many seconds of the processor, beside the instructions of `mixed analyse
# matrix` for the equation list of the same model, which this script writes by the words of the format (docs/formats.md, What
# `make` writes); and whether the six lines are those that the certificate tells.
# Usage: bench/making.sh [N ..]; without words 30, 100, 200 and 400. program.sh says what is to be built first.
set -eu
. "$(dirname "$0")/program.sh"

# The equation list of the made model of a size.
made_list() {
    awk -v n="$1" 'BEGIN {
        for (j = 1; j <= n; j++) print "unknown x" j
        x = n
        for (i = 1; i <= n; i++) {
            line = "eq e" i
            split("", taken)
            for (t = 0; t < 3; t++) {
                a = (x * 48271) % 2147483647
                x = (a * 48271) % 2147483647
                j = a % n + 1
                if (j in taken) continue
                taken[j] = 1
                line = line " x" j "=" (x % 4 > 1 ? "?" : int(x / 4) % 65520 + 1)
            }
            print line
        }
    }'
}

# The lines of `make` that a certificate tells.
told() {
    awk -v n="$1" '
        function part(name) {
            bar = 0; columns = 0; rows = 0
            for (k = 2; k <= NF; k++) if ($k == "|") bar = 1; else if (bar) rows++; else columns++
            return name " " rows " " columns
        }
        $1 == "shape" { print "make " n; print "equations " $2 " unknowns " $3 " split " $6 - $3 }
        $1 == "rank" { print }
        $1 == "first" { print part("first") }
        $1 == "block" { blocks++ }
        $1 == "last" { print "blocks " blocks + 0; print part("last") }'
}

row() {
    local size=$1 making analysing seconds same=differs
    made_list "$size" > "$work/list"
    "$program" make "$size" > "$work/made"
    "$program" analyse matrix < "$work/list" | told "$size" > "$work/told"
    if cmp -s "$work/made" "$work/told"; then same=same; fi
    /usr/bin/time -q -o "$work/time" -f %U "$program" make "$size" > "$work/again"
    cmp -s "$work/made" "$work/again" || same="differs from run to run"
    seconds=$(cat "$work/time")
    making=$(instructions /dev/null make "$size")
    analysing=$(instructions "$work/list" analyse matrix)
    awk -v size="$size" -v making="$making" -v analysing="$analysing" -v seconds="$seconds" -v same="$same" 'BEGIN {
        printf "| %d | %.1f | %s | %.1f | %.2f | %s |\n", size, making / 1e6, seconds, analysing / 1e6, making / analysing, same
    }'
}

echo "| N | make, million | seconds | analyse, million | ratio | lines |"
echo "|---|---|---|---|---|---|"
for size in ${*:-30 100 200 400}; do row "$size"; done
