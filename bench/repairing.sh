#!/usr/bin/env bash
# What `mixed repair` takes for an equation list whose equations have 16 different costs, beside `mixed analyse` of the list, and beside `mixed
# analyse` of each list whose form it makes: that of the equations of each level, and that of the kept ones, with all unknowns. The rest
# is what the choice itself takes: repair less these builds, in runs of `analyse` of the whole list. Seconds of the clock, which do not
# repeat, and instructions, counted by valgrind's callgrind, which do. Usage: bench/repairing.sh [FAMILY [EQUATIONS ..]]; without words
# mixed and symbols of 500. The families are those of bands.sh.
# COUNT=no leaves the instructions out, which take fifty times as long. program.sh says what is to be built first.
set -eu
. "$(dirname "$0")/program.sh"
. "$(dirname "$0")/bands.sh"

# All unknowns of a list, in order, and those of its equations that stand in a file of names.
part() {
    awk '
        NR == FNR { wanted[$1] = 1; next }
        { for (k = ($1 == "eq" ? 3 : 2); k <= NF; k++) { split($k, item, "="); if (!(item[1] in seen)) { seen[item[1]] = 1; print "unknown " item[1] } } }
        $1 == "eq" && $2 in wanted { lines[++count] = $0 }
        END { for (k = 1; k <= count; k++) print lines[k] }' "$1" "$2"
}

# Seconds of a command, and its instructions in millions, or 0.
taken() {
    local clock count=0
    clock=$(seconds "$@")
    [ "${COUNT:-yes}" = no ] || count=$(instructions "$@")
    awk -v clock="$clock" -v count="$count" 'BEGIN { printf "%s %.1f", clock, count / 1e6 }'
}

row() {
    local family=$1 size=$2 whole repair level clock=0 count=0 one
    made "$family" "$size" > "$work/list"
    awk '$1 == "eq" { print "cost " $2 " " (NR * 7919) % 16 + 1 }' "$work/list" > "$work/costs"
    { cat "$work/costs"; echo model; cat "$work/list"; } > "$work/problem"
    whole=$(taken "$work/list" analyse matrix)
    repair=$(taken "$work/problem" repair matrix)
    "$program" repair matrix < "$work/problem" | awk '$1 == "drop" { print $2 }' > "$work/dropped" || true
    for level in $(awk '{ print $3 }' "$work/costs" | sort -rnu) kept; do
        if [ "$level" = kept ]; then
            awk 'NR == FNR { gone[$1] = 1; next } !($2 in gone) { print $2 }' "$work/dropped" "$work/costs" > "$work/names"
        else
            awk -v least="$level" '$3 >= least { print $2 }' "$work/costs" > "$work/names"
        fi
        part "$work/names" "$work/list" > "$work/part"
        one=$(taken "$work/part" analyse matrix)
        clock=$(awk -v sum="$clock" -v one="${one% *}" 'BEGIN { print sum + one }')
        count=$(awk -v sum="$count" -v one="${one#* }" 'BEGIN { print sum + one }')
    done
    echo "$whole $repair $clock $count $(wc -l < "$work/dropped")" | awk -v family="$family" -v size="$size" '
        function rest(all, builds, base) { return base > 0 ? sprintf("%.2f", (all - builds) / base) : "-" }
        { printf "| %s | %d | %d | %.2f s, %.1f M | %.2f s, %.1f M | %.2f s, %.1f M | %s |\n", family, size, $7, $1, $2, $3, $4, $5, $6, rest($4, $6, $2) }'
}

echo "| family | equations | dropped | analyse | repair | analyse of its levels and of what is kept | the rest, in runs of analyse |"
echo "|---|---|---|---|---|---|---|"
for family in ${1:-mixed symbols}; do
    sizes=${*:2}
    for size in ${sizes:-500}; do row "$family" "$size"; done
done
