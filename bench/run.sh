#!/usr/bin/env bash
# The machine of `run` beside what gcc -O0 compiles from the same text: a loop, a matrix product, a recursive Fibonacci number, and a text
# filter on 1 MiB. Prints instructions a turn (callgrind, between 200,000 and 600,000 turns), nanoseconds a turn, and how many times as long
# as gcc's program it takes, all in one run.
# Call it at the top of the repository: bench/run.sh [PROGRAM], the built program; without it the one that `rt ci` has left.
set -u
program=${1:-crates/atac_cli/out/atac_cli}
[ -x "$program" ] || { echo "no program at $program: give its path" >&2; exit 1; }
work=$(mktemp -d) || exit 1
trap 'rm -rf "$work"' EXIT
line='The  quick brown fox	jumps over (the) lazy dog, and 12 more.'
instructions() {
    valgrind --tool=callgrind --callgrind-out-file=/dev/null "$program" run -t "$1" "$2" "$3" 2>&1 > /dev/null | sed -n 's/.*Collected : //p'
}
for row in 'loop 0' 'matrix 0' 'fibonacci 0' 'filter 1048576'; do
    set -- $row
    yes "$line" | head -c "$2" > "$work/text"
    few=$(instructions 200000 "bench/$1.c" "$work/text")
    many=$(instructions 600000 "bench/$1.c" "$work/text")
    start=$(date +%s%N)
    "$program" run -t 100000000 "bench/$1.c" "$work/text" > "$work/section" || exit 1
    took=$(( $(date +%s%N) - start ))
    end=$(tail -n 1 "$work/section")
    turns=$(echo "$end" | sed -n 's/.* turns \([0-9]*\) .*/\1/p')
    beside='no gcc'
    if command -v gcc > /dev/null && gcc -std=c89 -w -O0 -o "$work/program" "bench/$1.c"; then
        start=$(date +%s%N)
        "$work/program" < "$work/text" > /dev/null
        native=$(( $(date +%s%N) - start ))
        beside="gcc -O0: $(( native / 1000000 )) ms for all of it, $(( took / native )) times less"
    fi
    echo "$1: $(( (many - few) / 400000 )) instructions a turn, $(( took * 10 / turns )) tenths of a nanosecond a turn, $end; $beside"
done
