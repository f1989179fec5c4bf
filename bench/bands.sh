# For the scripts that source this behind program.sh: more lists, and the seconds of a run. The families are those of lists.sh, and
#   blocks     pairs of equations over pairs of unknowns, each of the four places with a symbol, and one symbol that joins each pair
#              to the next, so that half of the places of a pair's second row have a 2
#   band       three symbols around the diagonal in each equation
#   surplusK   the same band, of K equations less, and K / 2 pairs of equations, each pair over one unknown: K are surplus
list() {
    awk -v family="$1" -v size="$2" '
        BEGIN {
            few = substr(family, 8) + 0
            if (family ~ /^surplus/) size -= few
            for (u = 1; u <= size; u++) print "unknown x" u
            for (e = 1; e <= size; e++) {
                line = "eq e" e
                if (family == "blocks") {
                    first = e - 1 + e % 2
                    line = line " x" first "=? x" first + 1 "=?"
                    if (e % 2 == 0 && first + 2 <= size) line = line " x" first + 2 "=?"
                } else {
                    for (u = e - 1; u <= e + 1; u++) if (u >= 1 && u <= size) line = line " x" u "=?"
                }
                print line
            }
            for (e = 1; e <= few; e++) print "eq d" e " y" int((e + 1) / 2) "=" e
        }'
}

made() {
    case $1 in
        blocks | band | surplus*) list "$1" "$2" ;;
        *) equations "$1" "$2" ;;
    esac
}

# Seconds of the clock of the program with these words on a file; it ends with 0 or 1.
seconds() {
    local input=$1 start
    shift
    start=$(date +%s%N)
    "$program" "$@" < "$input" > "$work/told" || [ $? -eq 1 ] || { echo "$* failed" >&2; exit 1; }
    awk -v taken=$(($(date +%s%N) - start)) 'BEGIN { printf "%.2f", taken / 1e9 }'
}
