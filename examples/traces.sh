#!/usr/bin/env bash
# Measures each example over fifty runs into two traces, merges them, and holds what is told of the sum to `cover`:
#     examples/traces.sh PROGRAM
# `report` over the merged traces must be the report of `cover` on the same inputs, and an item is `in 0 runs` by `hits` exactly
# where it is uncovered. The inputs that `pick` keeps cover what all cover, and `json` has as many uncovered items as `report`.
set -eu
atac=$(realpath "$1")
here=$(cd "$(dirname "$0")" && pwd)
room=$(mktemp -d)
trap 'rm -rf "$room"' EXIT
inputs=("$here"/*.txt)
for program in "$here"/*.c; do
    rm -f "$room"/*
    "$atac" instrument "$program" "$room/probed"
    given=()
    for ((run = 0; run < 50; run++)); do
        input=${inputs[run % ${#inputs[@]}]}
        given+=("$input")
        "$atac" run "$room/probed" "$input" "$room/trace$((run % 2))" > "$room/section"
    done
    [ "$("$atac" merge "$room/sum" "$room/trace0" "$room/trace1")" = "runs 50" ]
    "$atac" report "$program" "$room/sum" > "$room/report"
    "$atac" cover "$program" "${given[@]}" | tail -n "$(wc -l < "$room/report")" > "$room/covered"
    cmp "$room/report" "$room/covered"
    "$atac" hits "$program" "$room/sum" > "$room/hits"
    [ "$(grep -c ' uncovered$' "$room/report")" = "$(grep -c ' in 0 runs$' "$room/hits")" ]
    "$atac" show "$program" "$room/sum" | tail -n 5 | cmp - <(tail -n 5 "$room/report")
    "$atac" json "$program" "$room/sum" > "$room/json"
    [ "$(grep -o '"covered":false' "$room/json" | wc -l)" = "$(grep -c ' uncovered$' "$room/report")" ]
    "$atac" pick "$program" "${inputs[@]}" > "$room/picked"
    mapfile -t kept < <(sed -n 's/^keep //p' "$room/picked")
    "$atac" cover "$program" "${kept[@]}" | tail -n 5 | cmp - <(tail -n 5 "$room/picked")
    tail -n 5 "$room/report" | cmp - <(tail -n 5 "$room/picked")
    head -c 100 "$room/sum" > "$room/cut"
    status=0
    "$atac" report "$program" "$room/cut" > /dev/null 2> "$room/said" || status=$?
    [ "$status" = 6 ] && [ "$(cat "$room/said")" = "atac: $room/cut: 62 Length" ]
    echo "$(basename "$program"): 50 runs"
done
