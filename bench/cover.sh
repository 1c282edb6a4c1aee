#!/usr/bin/env bash
# What `cover` costs beside `run`: a loop, a matrix product, a recursive Fibonacci number, and a text filter on 1 MiB. Prints for both the
# instructions a turn (callgrind, between 200,000 and 600,000 turns), and how many times as many `cover` takes; the same of processor
# seconds for the whole of 20,000,000 turns; the part of the instructions that are in the collector; and the most memory of `cover`, in KB.
# Call it at the top of the repository: bench/cover.sh [PROGRAM], the built program; without it the one that `rt ci` has left.
set -u
program=${1:-crates/atac_cli/out/atac_cli}
[ -x "$program" ] || { echo "no program at $program: give its path" >&2; exit 1; }
work=$(mktemp -d) || exit 1
trap 'rm -rf "$work"' EXIT
line='The  quick brown fox	jumps over (the) lazy dog, and 12 more.'
instructions() {
    valgrind --tool=callgrind --callgrind-out-file="$work/calls" "$program" "$1" -t "$2" "$3" "$4" 2>&1 > /dev/null | sed -n 's/.*Collected : //p'
}
seconds() {
    /usr/bin/time -f '%U %M' "$program" "$1" -t 20000000 "$2" "$3" 2>&1 > /dev/null | tail -n 1
}
for row in 'loop 0' 'matrix 0' 'fibonacci 0' 'filter 1048576'; do
    set -- $row
    yes "$line" | head -c "$2" > "$work/text"
    for command in run cover; do
        few=$(instructions "$command" 200000 "bench/$1.c" "$work/text")
        many=$(instructions "$command" 600000 "bench/$1.c" "$work/text")
        eval "$command=$(( (many - few) / 400000 ))"
        set -- "$@" $(seconds "$command" "bench/$1.c" "$work/text")
    done
    collector=$(callgrind_annotate "$work/calls" 2> /dev/null | awk '/cover_core|cover_parts|atac_facts/ { gsub(",", "", $1); all += $1 } END { print all + 0 }')
    echo "$1: run $run, cover $cover instructions a turn, $(( cover * 100 / run )) in 100; run $3 s, cover $5 s; collector $(( collector * 100 / many )) in 100 of the instructions; $6 KB"
done
