#!/usr/bin/env bash
# What it costs to decode a trace, as a multiple of what its SHA-256 alone takes: by processor time on a trace of 64 MiB, 8,388,596
# pairs (samples of perf, of five runs together), and by instructions (callgrind) on one of 8 MB, 1,000,000 pairs. Decoding is `report`
# of a trace of another program, which ends when it is decoded, less that of a trace that is refused at its first record, which is only
# fetched; and `report` and `merge` are the whole commands. Both tools are asked for, and either may be absent.
# Call it at the top of the repository: bench/traces.sh [PROGRAM], the built program; without it the one that `rt ci` has left.
set -u
program=$(realpath "${1:-crates/atac_cli/out/atac_cli}")
[ -x "$program" ] || { echo "no program at $program: give its path" >&2; exit 1; }
work=$(mktemp -d) || exit 1
trap 'rm -rf "$work"' EXIT
echo 'int main(void){return 0;}' > "$work/own.c"
echo 'int main(void){return 1;}' > "$work/other.c"
python3 - "$work" << 'END' || exit 1
import hashlib, struct, sys
work = sys.argv[1]
with open(f"{work}/own.c", "rb") as it:
    digest = hashlib.sha256(it.read()).digest()
for name, wanted in ("large", (67108864 - 94) // 8), ("small", 1000000):
    front = bytearray(b"ATAC\0\2" + digest + struct.pack(">IIIII", 1, 0, 0, 0, wanted))
    for d in range(1, 16384):
        uses = range(1, min(16383, wanted - (d - 1) * 16383) + 1)
        front += b"".join(struct.pack(">HHI", d, u, 1) for u in uses)
    front += bytes(4)
    for end, text in ("", front), ("-bad", front[:58] + bytes(2) + front[60:]):
        with open(f"{work}/{name}{end}", "wb") as it:
            it.write(text + hashlib.sha256(text).digest())
END
# how many samples a call takes, and how many of them are in the SHA-256
samples() {
    for _ in 1 2 3 4 5; do
        perf record -q -e cpu-clock -F 1999 -o "$work/perf" "$program" "$@" > /dev/null 2>&1
        perf report -q -i "$work/perf" --stdio -n --sort symbol 2> /dev/null
    done | awk '$2 ~ /^[0-9]+$/ { all += $2 } $2 ~ /^[0-9]+$/ && /sha2::/ { digest += $2 } END { print all + 0, digest + 0 }'
}
# the same in instructions
instructions() {
    valgrind -q --tool=callgrind --callgrind-out-file="$work/calls" "$program" "$@" > /dev/null 2>&1
    callgrind_annotate --threshold=100 --show=Ir "$work/calls" | sed 's/,//g' |
        awk '/PROGRAM TOTALS/ { all = $1 } /sha2::/ { digest += $1 } END { print all + 0, digest + 0 }'
}
tell() {
    awk -v what="$1" -v all="$2" -v digest="$3" -v fetched="$4" 'BEGIN { printf "%s: %.2f times its SHA-256\n", what, (all - fetched) / digest }'
}
measure() {
    local how=$1 trace=$2 fetched decoded told merged
    fetched=$("$how" report "$work/own.c" "$trace-bad")
    decoded=$("$how" report "$work/other.c" "$trace")
    told=$("$how" report "$work/own.c" "$trace")
    merged=$("$how" merge "$work/sum" "$trace")
    tell "decoding, by $how" $decoded "${fetched% *}"
    tell "report, by $how" $told 0
    # (beside this one and that of what it writes)
    tell "merge, by $how" $merged 0
}
command -v perf > /dev/null && measure samples "$work/large"
command -v callgrind_annotate > /dev/null && measure instructions "$work/small"
exit 0
