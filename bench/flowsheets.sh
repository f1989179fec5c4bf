#!/bin/sh
# How many instructions `mixed layer flowsheet` takes for each byte of flowsheets of 1, 2, 4 and 8 MiB, beside `wc -w` on the
# same file, as valgrind's callgrind counts them. The first shape has no component, so that no unit adds an equation and a
# document may hold as many streams and units as its bytes allow: what it costs is the document, and looking up names. The
# second has 64 components in 64 streams, which are all unknowns that there may be, and mixers of one inlet whose tables are
# filled by comments, up to 4,096 equations.
# Build the program first: cd crates/mixed && rt run -- layer flowsheet < ../../examples/heat_exchanger.toml
set -eu
export LC_ALL=C
here=$(cd "$(dirname "$0")" && pwd)
program=$here/../crates/mixed/out/mixed
. "$here/timing.sh"
needs_program
input=$(mktemp)
counts=$(mktemp)
trap 'rm -f "$input" "$counts"' EXIT

# Streams and separators over them, up to so many bytes.
names_alone() {
    awk -v bytes="$1" 'BEGIN {
        streams = int(bytes / 200)
        printf "streams = ["
        for (s = 0; s < streams; s++) printf "\"s%d\", ", s
        print "]"
        size = streams * 12
        for (u = 0; size < bytes; u++) {
            unit = "[[unit]]\nname = \"U" u "\"\nkind = \"separator\"\ninlet = \"s" u % streams "\"\ntop = \"s" (u + 1) % streams "\"\nbottom = \"s" (u + 7) % streams "\"\n"
            size += length(unit)
            printf "%s", unit
        }
    }'
}

# 64 components in 64 streams, and 64 mixers with comments of one length.
mixers() {
    awk -v bytes="$1" 'BEGIN {
        printf "components = ["
        for (c = 0; c < 64; c++) printf "\"C%d\", ", c
        printf "]\nstreams = ["
        for (s = 0; s < 64; s++) printf "\"s%d\", ", s
        print "]"
        for (u = 0; u < 63; u++) {
            print "[[unit]]\nname = \"U" u "\"\nkind = \"mixer\"\ninlets = [\"s" u "\"]\noutlet = \"s" u + 1 "\""
            for (size = 0; size < bytes / 63; size += 60) print "# as measured at the plant, and written down by hand, twice"
        }
    }'
}

# The instructions of a command on the input.
instructions() {
    valgrind --tool=callgrind --callgrind-out-file=/dev/null "$@" < "$input" > /dev/null 2> "$counts"
    awk '/Collected/ { print $4 }' "$counts"
}

row() {
    bytes=$(wc -c < "$input")
    awk -v shape="$1" -v bytes="$bytes" -v layer="$(instructions "$program" layer flowsheet)" -v count="$(instructions wc -w)" 'BEGIN {
        printf "%-12s %9d %13.0f %9.1f %9.1f\n", shape, bytes, layer, layer / bytes, count / bytes
    }'
}

echo "shape            bytes  instructions  a byte    wc -w"
for size in 1 2 4 8; do
    names_alone $((size * 1048576 - 200)) > "$input"
    row names
    mixers $((size * 1048576 - 20000)) > "$input"
    row mixers
done
