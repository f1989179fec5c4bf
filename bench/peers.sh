#!/usr/bin/env bash
# `mixed analyse matrix` beside well-known programs on the same lists, in one run: FLINT's reduced row echelon form of
# [Q | I] on constants, and CXSparse's block triangular form on symbols. Instructions repeat; seconds are the least of three.
# Wants libflint-dev, libsuitesparse-dev, valgrind and a C compiler, from Debian's packages.
# Usage: bench/peers.sh [FAMILY [EQUATIONS ..]]; without words dense lists of 250 and 500, constants of 500 and 1000, a grid
# of 400 points, and symbols of 2000 and 4000 (see lists.sh). program.sh says what is to be built first.
set -eu
. "$(dirname "$0")/program.sh"

peers=$(dirname "$0")/peers
cc -O3 -o "$work/rref" "$peers/rref.c" -lflint -lgmp
cc -O3 -o "$work/dmperm" "$peers/dmperm.c" -lcxsparse

# The least seconds of three runs of a command on the list.
seconds() {
    for _ in 1 2 3; do
        /usr/bin/time -q -o "$work/time" -f %U "$@" < "$work/list" > /dev/null || true
        cat "$work/time"
    done | sort -n | head -1
}

# The instructions of a peer on the list.
counted() {
    valgrind --tool=callgrind --callgrind-out-file=/dev/null "$1" < "$work/list" > /dev/null 2> "$work/counts"
    awk '/Collected/ { print $4 }' "$work/counts"
}

row() {
    local family=$1 size=$2 peer=rref ours theirs
    if [ "$family" = symbols ]; then peer=dmperm; fi
    equations "$family" "$size" > "$work/list"
    ours=$(instructions "$work/list" analyse matrix)
    theirs=$(counted "$work/$peer")
    awk -v family="$family" -v size="$size" -v peer="$peer" -v ours="$ours" -v theirs="$theirs" \
        -v s="$(seconds "$program" analyse matrix)" -v t="$(seconds "$work/$peer")" 'BEGIN {
            printf "| %s | %d | %s | %.1f | %.1f | %.2f | %.2f | %.2f |\n", family, size, peer, ours / 1e6, theirs / 1e6,
                ours / theirs, s, t
        }'
}

echo "| family | equations | peer | mixed, million | peer, million | ratio | mixed, seconds | peer, seconds |"
echo "|---|---|---|---|---|---|---|---|"
for family in ${1:-dense constants grid symbols}; do
    sizes=${*:2}
    case $family in
        dense) sizes=${sizes:-250 500} ;;
        constants) sizes=${sizes:-500 1000} ;;
        grid) sizes=${sizes:-400} ;;
        *) sizes=${sizes:-2000 4000} ;;
    esac
    for size in $sizes; do row "$family" "$size"; done
done
