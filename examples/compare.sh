#!/bin/sh
# Runs each example on its inputs, and on the ones that every example can read, by `atac run` and by what gcc compiles from
# the same text. The bytes that they print and the status that they return must be the same. Then the borders: a text filter on
# 1 MiB, which the turns cut off, and inputs of 16,777,216 bytes and of one byte more.
# Call it at the top of the repository, with the program to be asked, as: examples/compare.sh ./atac
# Where there is no gcc, it says so and is content.
set -u
atac=${1:-./atac}
command -v gcc > /dev/null || { echo "no gcc: the examples were not compared"; exit 0; }
work=$(mktemp -d) || exit 1
trap 'rm -rf "$work"' EXIT
passed=0
failed=0

# what a run put: the bytes between the first line and the last two newlines; and its last line
split() {
    head -n 1 "$1" | wc -c > "$work/first"
    tail -n 1 "$1" > "$work/end"
    whole=$(wc -c < "$1")
    first=$(cat "$work/first")
    last=$(wc -c < "$work/end")
    tail -c +$((first + 1)) "$1" | head -c $((whole - first - last - 1)) > "$work/output"
}

tell() {
    if [ "$1" = 0 ]; then passed=$((passed + 1)); else failed=$((failed + 1)); echo "differs: $2"; fi
}

compared() {
    "$work/program" < "$2" > "$work/expected"
    status=$?
    "$atac" run -t 2000000 "$1" "$2" > "$work/section" 2> "$work/said"
    split "$work/section"
    returned=$(sed -n 's/^== \(returned\|exited\) \(-\{0,1\}[0-9]*\) .*/\2/p' "$work/end")
    [ -n "$returned" ] && [ $((returned & 255)) = "$status" ] && cmp -s "$work/expected" "$work/output"
    tell $? "$1 $2"
}

for program in examples/*.c; do
    gcc -std=c89 -w -o "$work/program" "$program" || exit 1
    name=$(basename "$program" .c)
    for input in /dev/null examples/hello.txt examples/long.txt examples/"$name"-*.txt; do
        [ -e "$input" ] || continue
        cat "$input" > "$work/input"
        compared "$program" "$work/input"
    done
done

# 1 MiB through a filter: 2,000,000 turns print a front of what gcc's program prints
gcc -std=c89 -w -o "$work/program" bench/filter.c || exit 1
yes 'The  quick brown fox	jumps over (the) lazy dog, and 12 more.' | head -c 1048576 > "$work/input"
"$work/program" < "$work/input" > "$work/expected"
"$atac" run -t 2000000 bench/filter.c "$work/input" > "$work/section"
split "$work/section"
printed=$(wc -c < "$work/output")
head -c "$printed" "$work/expected" | cmp -s - "$work/output" && [ "$printed" -gt 40000 ] \
    && grep -q "^== turn limit turns 2000000 bytes $printed\$" "$work/end"
tell $? "bench/filter.c on 1 MiB"

# the longest input, and one that is too long
printf 'int main(void){int c;while((c=getchar())==0);return c;}' > "$work/program.c"
head -c 16777215 /dev/zero > "$work/input"
printf 'x' >> "$work/input"
"$atac" run "$work/program.c" "$work/input" > "$work/section" && grep -q '^== turn limit turns 1000000 bytes 0$' "$work/section"
tell $? "an input of 16777216 bytes"
printf 'y' >> "$work/input"
"$atac" run "$work/program.c" "$work/input" > "$work/section" 2> "$work/said"
[ $? = 5 ] && [ ! -s "$work/section" ] && grep -q ': too long$' "$work/said"
tell $? "an input of 16777217 bytes"

echo "compared with gcc: $passed alike, $failed differ"
[ "$failed" = 0 ]
