#!/usr/bin/env bash
# What it costs to tell of runs and traces: `watch` of a loop of 2,000,000 turns, `pick` of 1,000 inputs of a calculator, `self`, and
# `report` and `json` of 1,000,000 items. Prints for each the least seconds of five runs, and megabytes at the most.
# Call it at the top of the repository: bench/told.sh [PROGRAM], the built program; without it the one that `rt ci` has left.
set -u
program=$(realpath "${1:-crates/atac_cli/out/atac_cli}")
[ -x "$program" ] || { echo "no program at $program: give its path" >&2; exit 1; }
work=$(mktemp -d) || exit 1
trap 'rm -rf "$work"' EXIT
measure() {
    local name=$1
    shift
    for _ in 1 2 3 4 5; do
        /usr/bin/time -f '%e %M' "$@" 2>&1 > /dev/null | tail -n 1
    done | awk -v name="$name" 'NR == 1 || $1 < least { least = $1 } $2 > most { most = $2 } END { printf "%s: %.2f s, %.0f MB\n", name, least, most / 1024 }'
}
echo > "$work/nothing"
for watcher in events blocks; do
    measure "watch, $watcher" "$program" watch -t 2000000 bench/loop.c "$work/nothing" "$watcher"
done
mkdir "$work/inputs"
for ((input = 0; input < 1000; input++)); do
    echo "$((RANDOM % 1000)) + $((RANDOM % 100)) * $((input % 7))" > "$work/inputs/$input"
done
measure 'pick of 1,000 inputs' "$program" pick examples/calc.c "$work"/inputs/*
measure 'self 7' "$program" self 7
python3 bench/texts.py array-pairs 1000 > "$work/pairs.c"
"$program" instrument "$work/pairs.c" "$work/probed" || exit 1
"$program" run "$work/probed" "$work/nothing" "$work/trace" > /dev/null || exit 1
for command in report json; do
    measure "$command of 1,000,000 items" "$program" "$command" "$work/pairs.c" "$work/trace"
done
