#!/usr/bin/env bash
# Whether the program ends as it should where memory is refused: with 6, nothing on standard output, and the one line
# `mixed: out of memory` on standard error. The Nth call for memory is refused, for each N up to the last call that a run
# makes; and the address space is bounded, in steps, while a list of 8 MiB is layered.
# Usage: tools/refused_memory.sh   (MIXED: the program, or crates/mixed/out/mixed, built as bench/program.sh says. CC: a compiler
# of C for the few lines that stand between the program and malloc.)
# The last line counts the runs. While the words of the command line are gathered, `main` ends with 6 and has nothing to note it
# with: these are the first calls of a run, and are counted apart. The status is 1 if a run ended otherwise than for want of memory,
# or as if none were refused.
set -eu
export LC_ALL=C
program=$(realpath "${MIXED:-$(dirname "$0")/../crates/mixed/out/mixed}")
test -x "$program" || { echo "no $program: see bench/program.sh" >&2; exit 1; }
work=$(mktemp -d)
trap 'rm -rf "$work"' EXIT
runs=0 without=0 unnoted=0 otherwise=0
echo "mixed: out of memory" > "$work/line"
printf 'eq a x=? y=?\neq b x=1 z=2\neq c y=1+? z=1\n' > "$work/list"

# Refuses the call for memory whose number REFUSED has, and tells on stream 9 how many calls there were.
cat > "$work/refuse.c" <<'SOURCE'
#include <stdio.h>
#include <stdlib.h>
extern void *__libc_malloc(size_t), *__libc_calloc(size_t, size_t), *__libc_realloc(void *, size_t);
static long calls;
static int is_refused(void) {
    const char *number = getenv("REFUSED");
    return ++calls == (number ? atol(number) : 0);
}
void *malloc(size_t size) { return is_refused() ? 0 : __libc_malloc(size); }
void *calloc(size_t count, size_t size) { return is_refused() ? 0 : __libc_calloc(count, size); }
void *realloc(void *old, size_t size) { return is_refused() ? 0 : __libc_realloc(old, size); }
__attribute__((destructor)) static void tell(void) { if (calls) dprintf(9, "%ld\n", calls); }
SOURCE
"${CC:-cc}" -O1 -shared -fPIC -o "$work/refuse.so" "$work/refuse.c"

# Runs the words after the first, which says what is refused, on $input; leaves the status, and both streams in $work.
run() {
    local what=$1
    shift
    status=0
    case $what in
    call*) LD_PRELOAD="$work/refuse.so" REFUSED=${what#call } "$program" "$@" \
        < "$input" > "$work/out" 2> "$work/notes" 9> "$work/calls" || status=$? ;;
    room*) (ulimit -v "${what#room }" && exec "$program" "$@") < "$input" > "$work/out" 2> "$work/notes" || status=$? ;;
    esac
    runs=$((runs + 1))
}

# Keeps how the run ended that was last, in which no memory was refused: with a text, and nothing noted.
keep_whole() {
    { [ "$status" = 0 ] || [ "$status" = 1 ]; } && [ -s "$work/out" ] && [ ! -s "$work/notes" ] || {
        otherwise=$((otherwise + 1))
        echo "$*: status $status though no memory is refused"
    }
    whole=$status
    cp "$work/out" "$work/whole"
}

# Whether the run that was last ended as if no memory were refused.
is_whole() {
    [ "$status" = "$whole" ] && cmp -s "$work/out" "$work/whole" && [ ! -s "$work/notes" ]
}

# Whether it ended for want of memory.
is_want() {
    [ "$status" = 6 ] && [ ! -s "$work/out" ] && cmp -s "$work/notes" "$work/line"
}

# Whether it ended so before there were words, with nothing noted.
is_unnoted() {
    [ "$has_words" = no ] && [ "$status" = 6 ] && [ ! -s "$work/out" ] && [ ! -s "$work/notes" ]
}

# Looks at that run, which the words describe. A call that only asks for room ahead may be refused and the text be whole.
expect_want() {
    if is_whole; then
        without=$((without + 1))
    elif is_want; then
        has_words=yes
    elif is_unnoted; then
        unnoted=$((unnoted + 1))
    else
        otherwise=$((otherwise + 1))
        echo "$*: status $status, $(wc -c < "$work/out") bytes of output, noted: $(head -c 100 "$work/notes" | tr '\n' '|')"
    fi
}

# Refuses each call for memory of a run with these words, in turn.
refuse_each_call() {
    local number calls has_words=no
    run "call 0" "$@"
    keep_whole "$@"
    calls=$(cat "$work/calls")
    for ((number = 1; number <= calls; number++)); do
        run "call $number" "$@"
        expect_want "$* with call $number for memory refused"
    done
    echo "$*: $calls calls for memory"
}

# The least room, in steps of 512 KiB, in which a run with these words on the empty input ends as it should.
least_room() {
    local room
    for ((room = 2048; room < 65536; room += 512)); do
        input=/dev/null run "room $room" "$@"
        if [ "$status" = 0 ]; then break; fi
    done
    echo "$room"
}

# Bounds the address space of a run with these words, from the room in which the empty input is answered up to that in which
# the run ends as it should.
bound_room() {
    local room first has_words=yes
    run "room unlimited" "$@"
    keep_whole "$@"
    first=$(least_room "$@")
    for ((room = first; room < 2097152; room += 2048)); do
        run "room $room" "$@"
        if is_whole; then break; fi
        expect_want "$* in $room KiB"
    done
    echo "$*: from $first KiB, in which the empty input is answered, to $room KiB"
}

input=$work/list
for command in analyse report plan; do refuse_each_call "$command" matrix; done
"$program" analyse matrix < "$input" > "$work/certificate"
input=$work/certificate refuse_each_call check
printf 'add 1 a x=1 y=?\nadd 1 b y=1+?\nset 1 a z=2\nask 1\ndrop 1 b\n' > "$work/lines"
input=$work/lines refuse_each_call edit
input=/dev/null refuse_each_call make 2
examples=$(dirname "$0")/../examples
input=$examples/batteries_in_parallel.cir refuse_each_call analyse netlist
input=$examples/heat_exchanger.toml refuse_each_call analyse flowsheet

# Equations of 2 KiB each at rising unknowns, so that 4,096 of them are 8 MiB.
awk 'BEGIN {
    for (e = 1; e <= 4096; e++) {
        line = "eq e" e
        for (u = 1 + e * 7 % 3800; length(line) < 2030; u++) line = line " x" u "=" 1 + (e + u) % 6
        print line
    }
}' > "$work/long"
input=$work/long bound_room layer matrix

echo "$runs runs: $without ended well without the memory that they were refused, $unnoted before they had their words, $otherwise otherwise"
test "$otherwise" = 0
