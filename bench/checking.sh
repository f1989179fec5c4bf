#!/usr/bin/env bash
# How many instructions `mixed check` takes for the certificate of an equation list, beside those that `mixed analyse matrix`
# took to make it; and the most memory that it held beside the certificate's bytes.
# Usage: bench/checking.sh [FAMILY [EQUATIONS ..]]; without words dense lists of 250, 500 and 1000, and mixed and symbols of
# 1000, 2000 and 4000 (see lists.sh). program.sh says what is to be built first.
set -eu
. "$(dirname "$0")/program.sh"

row() {
    local family=$1 size=$2 made checked verdict bytes memory
    equations "$family" "$size" > "$work/list"
    "$program" analyse matrix < "$work/list" > "$work/certificate"
    verdict=$(/usr/bin/time -q -o "$work/time" -f %M "$program" check < "$work/certificate")
    bytes=$(wc -c < "$work/certificate")
    memory=$(cat "$work/time")
    made=$(instructions "$work/list" analyse matrix)
    checked=$(instructions "$work/certificate" check)
    awk -v family="$family" -v size="$size" -v bytes="$bytes" -v made="$made" -v checked="$checked" -v memory="$memory" \
        -v verdict="$verdict" 'BEGIN {
            printf "| %s | %d | %d | %.1f | %.1f | %.2f | %.2f | %s |\n", family, size, bytes, made / 1e6, checked / 1e6,
                checked / made, memory * 1024 / bytes, verdict
        }'
}

echo "| family | equations | bytes | analyse, million | check, million | ratio | memory / bytes | verdict |"
echo "|---|---|---|---|---|---|---|---|"
for family in ${1:-dense mixed symbols}; do
    sizes=${*:2}
    if [ "$family" = dense ]; then sizes=${sizes:-250 500 1000}; fi
    for size in ${sizes:-1000 2000 4000}; do row "$family" "$size"; done
done
