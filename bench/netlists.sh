#!/bin/sh
# How many bytes a second `mixed layer netlist` takes, beside `wc -w` on the same file, for netlists of 8 MiB: the best of ten
# runs each. `bench_reader` reads equation lists alone, so that layering and writing are in the time; the last column is the
# seconds that the same devices take without what fills their lines, which is about the share of these.
# A netlist has at most 4,096 equations. An operational amplifier has one and a device of the nine letters two or three, and
# each node one; so 4,000 devices are amplifiers but for 40, and of the letters alone there are 2,000 devices.
# Build the program first: cd crates/mixed && rt run -- layer netlist < ../../examples/sallen_key.cir
set -eu
export LC_ALL=C
here=$(cd "$(dirname "$0")" && pwd)
program=$here/../crates/mixed/out/mixed
. "$here/timing.sh"
needs_program
input=$(mktemp)
trap 'rm -f "$input"' EXIT

# A netlist of so many devices of the nine letters and so many operational amplifiers, over so many nodes. Comments fill the
# lines of the amplifiers, and values and then a comment those of the letters, up to so many bytes in all.
netlist() {
    awk -v letters="$1" -v amplifiers="$2" -v nodes="$3" -v bytes="$4" '
        function node(k) { return "n" k % nodes }

        function filled(line, filling, width,   more) {
            more = ""
            while (length(line) + length(more) + length(filling) + 1 <= width) more = more filling
            return line more
        }

        # Half of its width for values, and the rest for a comment.
        function letter(k, width,   line) {
            line = substr("RLC", 1 + k % 3, 1) k " " node(k) " " (k % 7 ? node(k * 5 + 1) : 0)
            return filled(filled(line, " 4.7k IC=0.5 TC1=0.001", width / 2) " #", " as measured", width)
        }

        function amplifier(k, width,   line) {
            line = ".opamp U" k " " node(k) " " node(k * 3 + 1) " " node(k * 7 + 2)
            return filled(line " #", " as measured", width)
        }

        BEGIN {
            share = amplifiers ? bytes / 2 : bytes
            for (k = 0; k < letters; k++) print letter(k, int(share / letters))
            for (k = 0; k < amplifiers; k++) print amplifier(k, int((bytes - share) / amplifiers))
        }'
}

row() {
    netlist "$1" "$2" "$3" 0 > "$input"
    bare=$(shortest 10 "$program" layer netlist)
    netlist "$1" "$2" "$3" 8388608 > "$input"
    layer=$(shortest 10 "$program" layer netlist)
    count=$(shortest 10 wc -w)
    bytes=$(wc -c < "$input")
    awk -v devices=$(($1 + $2)) -v bytes="$bytes" -v layer="$layer" -v count="$count" -v bare="$bare" 'BEGIN {
        printf "%7d %8d %15.0f %15.0f %12.2f %16.3f\n",
            devices, bytes, bytes * 1e9 / layer, bytes * 1e9 / count, count / layer, bare / 1e9
    }'
}

echo "devices    bytes   layer bytes/s   wc -w bytes/s   layer / wc  unfilled seconds"
row 40 3960 56
row 2000 0 96
