#!/usr/bin/env bash
# Times the whole analysis, `mixed analyse matrix`, on equation lists of the families of lists.sh. Without dense, and but for
# the places with both, these are the matrices of bench_engine.
# Usage: bench/analyse.sh [FAMILY [EQUATIONS ..]]; without words all, the dense ones at 250, 500 and 1000, the others at
# 500, 1000, 2000 and 4000.
# The rows are those of a table: family; equations; bytes in and out; seconds of the clock from before the program is started
# until its first byte is written, and of the whole program; the processor's seconds in it; the greatest memory; and then
# the processor's seconds of `mixed layer matrix` on the same list, of bench_reader (reading alone) and of bench_engine (the
# engine alone). A run that is longer than 180 seconds is stopped.
# Build the program first:
#   (cd crates/mixed && rt run -- analyse matrix < ../../examples/regular.txt)
# and for the last two columns, where `-` stands without them:
#   (cd crates/bench_reader && rt run < stdin); (cd crates/bench_engine && rt run -- mixed 60)
set -eu
export LC_ALL=C
crates=$(cd "$(dirname "$0")/../crates" && pwd)
program=$crates/mixed/out/mixed
reader=$crates/bench_reader/out/bench_reader
engine=$crates/bench_engine/out/bench_engine
test -x "$program" || { echo "no $program: see the head of this file" >&2; exit 1; }
work=$(mktemp -d)
trap 'rm -rf "$work"' EXIT

. "$(dirname "$0")/lists.sh"

# Runs a command on the list and leaves the bytes that it wrote in `bytes`, the seconds of the clock until the first of
# them in `first`, all seconds of the clock, the processor's and the KiB in `wall`, `user` and `memory`.
measure() {
    local start=$EPOCHREALTIME status
    /usr/bin/time -q -o "$work/time" -f '%x %e %U %M' timeout 180 "$@" < "$work/list" | {
        if IFS= read -r -N 1; then count=1; else count=0; fi
        echo "$EPOCHREALTIME" > "$work/first"
        echo $((count + $(wc -c))) > "$work/bytes"
    }
    bytes=$(cat "$work/bytes")
    first=$(awk -v start="$start" -v end="$(cat "$work/first")" 'BEGIN { printf "%.2f", end - start }')
    read -r status wall user memory < "$work/time"
    case $status in
        0) ;;
        124) wall="stopped at 180 s" ;;
        *) wall="status $status" ;;
    esac
}

# The processor's seconds of a program alone, or `-` where it is not built.
alone() {
    if [ -x "$1" ]; then measure "$@"; else user=-; fi
    echo "$user"
}

row() {
    local family=$1 size=$2 line
    equations "$family" "$size" > "$work/list"
    measure "$program" analyse matrix
    line="| $family | $size | $(wc -c < "$work/list") | $bytes | $first | $wall | $user | $((memory / 1024)) MiB"
    measure "$program" layer matrix
    line+=" | $user | $(alone "$reader")"
    if [ "$family" = dense ]; then line+=" | -"; else line+=" | $(alone "$engine" "$family" "$size")"; fi
    echo "$line |"
}

uptime
echo "| family | equations | bytes in | bytes out | first byte | clock | processor | memory | layer | reader | engine |"
echo "|---|---|---|---|---|---|---|---|---|---|---|"
for family in ${1:-dense symbols constants mixed}; do
    case $family in dense | symbols | constants | mixed) ;; *) echo "no family $family" >&2; exit 1 ;; esac
    sizes=${*:2}
    if [ "$family" = dense ]; then sizes=${sizes:-250 500 1000}; fi
    for size in ${sizes:-500 1000 2000 4000}; do row "$family" "$size"; done
done
uptime
