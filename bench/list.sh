#!/usr/bin/env bash
# The cost of `list` on made programs: milliseconds (the least of five runs), megabytes at the most, and the last line of what it says.
# Call it at the top of the repository: bench/list.sh [PROGRAM], the built program; without it the one that `rt ci` has left.
set -u
program=${1:-crates/atac_cli/out/atac_cli}
[ -x "$program" ] || { echo "no program at $program: give its path" >&2; exit 1; }
work=$(mktemp -d) || exit 1
trap 'rm -rf "$work"' EXIT
cat > "$work/measure.py" <<'END'
import resource, subprocess, sys, time
least = None
for _ in range(5):
    start = time.monotonic()
    ran = subprocess.run(sys.argv[1:], stdout=subprocess.PIPE, stderr=subprocess.STDOUT)
    took = time.monotonic() - start
    least = took if least is None else min(least, took)
most = resource.getrusage(resource.RUSAGE_CHILDREN).ru_maxrss
said = ran.stdout.decode().splitlines()
print(f"{least * 1000:.0f} ms, {most / 1024:.0f} MB, {said[-1].split('/')[-1]}")
END
for row in array-pairs:1000 array-steps:16380 assignments:16382 variables-used:13000 loop-assignments:5450 functions:4000; do
    python3 bench/texts.py "${row%:*}" "${row#*:}" > "$work/${row#*:}.c"
    echo "$row: $(python3 "$work/measure.py" "$program" list "$work/${row#*:}.c")"
done
