#!/usr/bin/env bash
# The cost of `check` on made programs, at a size and at ten times that: instructions a part (callgrind, the start of the program taken
# off), and milliseconds of the larger one, the least of five runs. Where the cost is linear, both numbers of instructions are alike.
# Call it at the top of the repository: bench/front.sh [PROGRAM], the built program; without it the one that `rt ci` has left.
set -u
program=${1:-crates/atac_cli/out/atac_cli}
[ -x "$program" ] || { echo "no program at $program: give its path" >&2; exit 1; }
work=$(mktemp -d) || exit 1
trap 'rm -rf "$work"' EXIT
instructions() {
    valgrind --tool=callgrind --callgrind-out-file=/dev/null "$program" check "$1" 2>&1 > "$work/said" | sed -n 's/.*Collected : //p'
}
milliseconds() {
    least=
    for _ in 1 2 3 4 5; do
        start=$(date +%s%N)
        "$program" check "$1" > /dev/null
        took=$(( ($(date +%s%N) - start) / 1000000 ))
        [ -n "$least" ] && [ "$least" -le "$took" ] || least=$took
    done
    echo "$least"
}
echo 'int main(void){return 0;}' > "$work/none.c"
start=$(instructions "$work/none.c")
for row in empty-statements:1600 sums:250 functions:700 calls:1600 variables:1600 file-variables:1600 fields:2500 structures:500 \
    enumerators:4000 case-labels:1600 initialisers:4900 nested-scopes:19 parentheses:39; do
    kind=${row%:*}
    parts=${row#*:}
    for n in "$parts" "$((parts * 10))"; do
        python3 bench/texts.py "$kind" "$n" > "$work/$n.c"
        eval "count_$([ "$n" = "$parts" ] && echo one || echo ten)=\$(( (\$(instructions \"$work/$n.c\") - start) / n ))"
    done
    echo "$kind: $count_one instructions a part at $parts, $count_ten at $((parts * 10)), which take $(milliseconds "$work/$((parts * 10)).c") ms: $(cat "$work/said")"
done
