#!/usr/bin/env bash
# How many instructions and seconds of the processor `mixed analyse matrix` takes over each of the two fields, on the same
# lists: version 2 of the certificate in both. Instructions repeat; seconds are the least of three.
# Usage: bench/fields.sh [FAMILY [EQUATIONS ..]]; without words dense lists of 250, 500 and 1000, mixed and symbols of 2000
# (see lists.sh). program.sh says what is to be built first.
set -eu
. "$(dirname "$0")/program.sh"

# The least seconds of three runs over a field.
seconds() {
    for _ in 1 2 3; do
        /usr/bin/time -q -o "$work/time" -f %U "$program" analyse matrix "$1" < "$work/list" > /dev/null
        cat "$work/time"
    done | sort -n | head -1
}

row() {
    local family=$1 size=$2 small large
    equations "$family" "$size" > "$work/list"
    small=$(instructions "$work/list" analyse matrix 65521)
    large=$(instructions "$work/list" analyse matrix 2147483647)
    awk -v family="$family" -v size="$size" -v small="$small" -v large="$large" -v s="$(seconds 65521)" \
        -v t="$(seconds 2147483647)" 'BEGIN {
            printf "| %s | %d | %.1f | %.1f | %.2f | %.2f | %.2f | %.2f |\n", family, size, small / 1e6, large / 1e6,
                large / small, s, t, (s > 0 ? t / s : 0)
        }'
}

echo "| family | equations | 65,521, million | 2,147,483,647, million | ratio | seconds | seconds | ratio |"
echo "|---|---|---|---|---|---|---|---|"
for family in ${1:-dense mixed symbols}; do
    sizes=${*:2}
    case $family in
        dense) sizes=${sizes:-250 500 1000} ;;
        *) sizes=${sizes:-2000} ;;
    esac
    for size in $sizes; do row "$family" "$size"; done
done
