#!/usr/bin/env bash
# Whether edits within the room that was taken before ask for no memory, and what is copied where room is taken row by row: each
# kind of crates/bench_edits gains 1,000 rows in room for 1,000, and asks for memory as often as with no row; and it gains 1,000
# rows with no room taken before, where the bytes that it asks for in all are told beside those of the first way.
# Usage: tools/room_memory.sh   (EDITS: the program, or crates/bench_edits/out/bench_edits, which `rt run` in that folder builds.
# CC: a compiler of C for the few lines that count the calls.) The last line counts the kinds; the status is 1 if one is otherwise.
set -eu
export LC_ALL=C
program=$(realpath "${EDITS:-$(dirname "$0")/../crates/bench_edits/out/bench_edits}")
test -x "$program" || { echo "no $program: see crates/bench_edits" >&2; exit 1; }
work=$(mktemp -d)
trap 'rm -rf "$work"' EXIT
rows=1000
otherwise=0

cat > "$work/count.c" <<'SOURCE'
#include <stdio.h>
#include <stdlib.h>
extern void *__libc_malloc(size_t), *__libc_calloc(size_t, size_t), *__libc_realloc(void *, size_t);
static unsigned long calls, bytes;
static void count(size_t size) { calls++; bytes += size; }
void *malloc(size_t size) { count(size); return __libc_malloc(size); }
void *calloc(size_t number, size_t size) { count(number * size); return __libc_calloc(number, size); }
void *realloc(void *old, size_t size) { count(size); return __libc_realloc(old, size); }
__attribute__((destructor)) static void tell(void) { if (calls) dprintf(9, "%lu %lu\n", calls, bytes); }
SOURCE
"${CC:-cc}" -O1 -shared -fPIC -o "$work/count.so" "$work/count.c"

# The calls for memory and the bytes of a run with these words.
counted() {
    LD_PRELOAD="$work/count.so" "$program" "$@" > "$work/out" 9> "$work/calls"
    cat "$work/calls"
}

for kind in sparse dense matching; do
    read -r calls_without bytes_without <<< "$(counted "$kind" "$rows" 0000)"
    read -r calls_ahead bytes_ahead <<< "$(counted "$kind" "$rows" "$rows")"
    read -r calls_by_row bytes_by_row <<< "$(counted "$kind" 0 "$rows")"
    echo "$kind: room for $rows rows takes $calls_without calls for memory, with $rows rows put in $calls_ahead;" \
        "row by row $calls_by_row calls, $((bytes_by_row * 100 / bytes_ahead)) bytes for each 100"
    if [ "$calls_without" != "$calls_ahead" ] || [ "$bytes_without" != "$bytes_ahead" ]; then otherwise=$((otherwise + 1)); fi
done
echo "3 kinds, $otherwise otherwise"
test "$otherwise" = 0
