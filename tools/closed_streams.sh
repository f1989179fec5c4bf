#!/usr/bin/env bash
# Whether the program ends as it should where a stream of its process fails: with the status and the one line of that fault,
# and by no signal. A write fails on a full disk, behind a reader that goes away, and where standard output is closed; a read
# fails where standard input is closed or a folder; and a standard error that fails changes no status.
# Usage: tools/closed_streams.sh   (MIXED: the program, or crates/mixed/out/mixed, built as bench/program.sh says)
# The last line counts the runs. The status is 1 if one ended otherwise.
set -u
export LC_ALL=C
program=$(realpath "${MIXED:-$(dirname "$0")/../crates/mixed/out/mixed}")
test -x "$program" || { echo "no $program: see bench/program.sh" >&2; exit 1; }
work=$(mktemp -d)
trap 'rm -rf "$work"' EXIT
runs=0 otherwise=0

# 4,096 names of 58 bytes and more: what each command but `check` and `make` writes of them is more than a pipe holds.
names() {
    awk -v before="$1" -v behind="$2" 'BEGIN {
        for (u = 1; u <= 4096; u++) printf "%sa_name_so_long_that_the_texts_are_more_than_a_pipe_holds.%d%s", before, u, behind
    }'
}
names 'unknown ' '\n' > "$work/list"
(printf 'add 1 e'; names ' ' '=?'; printf '\nask 1\n') > "$work/lines"
"$program" analyse matrix < "$work/list" > "$work/certificate"
: > "$work/notes"

# Looks at a run: what it was, its status, and the status and the line that are wanted.
expect() {
    runs=$((runs + 1))
    printf '%s' "${4:+$4$'\n'}" > "$work/line"
    if [ "$2" != "$3" ] || ! cmp -s "$work/notes" "$work/line"; then
        otherwise=$((otherwise + 1))
        echo "$1: status $2, noted: $(head -c 100 "$work/notes" | tr '\n' '|')"
    fi
}

# Outputs that fail, of a command with the words after the first on that input.
failing_outputs() {
    local input=$1
    shift
    "$program" "$@" < "$input" > /dev/full 2> "$work/notes"
    expect "$* on a full disk" $? 5 "mixed: write fault"
    "$program" "$@" < "$input" >&- 2> "$work/notes"
    expect "$* with a closed output" $? 5 "mixed: write fault"
    (sleep 0.2 && exec "$program" "$@" < "$input" 2> "$work/notes") | true
    expect "$* behind a reader that is gone" "${PIPESTATUS[0]}" 5 "mixed: write fault"
}

# A reader that goes away after ten bytes.
leaving_reader() {
    local input=$1
    shift
    "$program" "$@" < "$input" 2> "$work/notes" | head -c 10 > "$work/out"
    expect "$* behind a reader of ten bytes" "${PIPESTATUS[0]}" 5 "mixed: write fault"
}

# Inputs that fail.
failing_inputs() {
    "$program" "$@" <&- > "$work/out" 2> "$work/notes"
    expect "$* with a closed input" $? 4 "mixed: read fault"
    "$program" "$@" < "$work" > "$work/out" 2> "$work/notes"
    expect "$* with a folder as its input" $? 4 "mixed: read fault"
}

for command in analyse layer report plan; do
    failing_outputs "$work/list" "$command" matrix
    leaving_reader "$work/list" "$command" matrix
    for kind in matrix netlist flowsheet; do failing_inputs "$command" "$kind"; done
done
failing_outputs "$work/certificate" check
failing_inputs check
failing_outputs "$work/lines" edit
leaving_reader "$work/lines" edit
failing_inputs edit
failing_outputs /dev/null make 2

# `make` reads nothing, so that it needs no input.
"$program" make 2 <&- > "$work/out" 2> "$work/notes"
expect "make 2 with a closed input" $? 0 ""

# What can't be noted changes no status.
: > "$work/notes"
echo "foo" | "$program" layer matrix > "$work/out" 2> /dev/full
expect "a refusal that can't be noted" $? 3 ""
echo "foo" | "$program" layer matrix > "$work/out" 2>&-
expect "a refusal with a closed standard error" $? 3 ""
"$program" layer matrix < "$work" > "$work/out" 2>&-
expect "a read fault with a closed standard error" $? 4 ""
"$program" layer matrix < "$work/list" > /dev/full 2>&-
expect "a write fault with a closed standard error" $? 5 ""

echo "$runs runs, $otherwise otherwise"
test "$otherwise" = 0
