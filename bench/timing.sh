# What the scripts that time a program beside `wc -w` share; they source it. `program` and `input` are theirs: the program
# that is timed, and a file that it reads from standard input.

needs_program() {
    test -x "$program" || { echo "no $program: see the head of this script" >&2; exit 1; }
}

# The shortest of some runs of a command on the input, in nanoseconds: how many, and the command.
shortest() {
    runs=$1
    shift
    best=
    for run in $(seq "$runs"); do
        start=$(date +%s%N)
        "$@" < "$input" > /dev/null
        taken=$(($(date +%s%N) - start))
        if [ -z "$best" ] || [ "$taken" -lt "$best" ]; then best=$taken; fi
    done
    echo "$best"
}
