#!/bin/bash
# Measures the reading of a graph file of about 1 MiB by the program, beside sha256sum of 16 MiB, in one run: the medians of five rounds, each of 20 runs of
# either. The memory is measured once. ODIN names the program, else it is the one that was built here.
set -eu
export LC_ALL=C
cd "$(dirname "$0")/.."
odin=$(realpath "${ODIN:-crates/odin/out/odin}")
work=$(mktemp -d)
trap 'rm -rf "$work"' EXIT
cd "$work"

# The seconds that 20 runs of a command take, without its output.
seconds() {
    local start=$EPOCHREALTIME
    for _ in $(seq 20); do "$@" < /dev/null > /dev/null; done
    awk -v a="$start" -v b="$EPOCHREALTIME" 'BEGIN { printf "%.3f\n", b - a }'
}
median() { sort -n "$1" | sed -n 3p; }

# 1,000 types and as many tools, each with words of some 1,000 bytes.
awk 'BEGIN {
    while (length(word) < 220) word = word "a word of a tool "
    for (k = 0; k < 1000; k++) printf "type t%d simple;\n", k
    for (k = 0; k < 999; k++) printf "tool m%d 1 from t%d to t%d run \"sh\" \"%s\" \"%s\" \"%s\" \"%s\";\n", k, k, k + 1, word, word, word, word }' > graph
head -c 16777216 /dev/urandom > text
# a file with a fault at its end is read to there, and no store is opened
{ cat graph; echo '?'; } > faulty
for _ in 1 2 3 4 5; do
    seconds sh -c "'$odin' faulty || [ \$? = 2 ]" >> reads
    seconds sh -c 'sha256sum text' >> sums
done
/usr/bin/time -f %M -o memory "$odin" faulty < /dev/null > told || true
bytes=$(stat -c %s graph)
echo "20 times: reading the file of $bytes bytes $(median reads) s, sha256sum $(median sums) s, ratio $(awk -v a="$(median reads)" -v b="$(median sums)" 'BEGIN { printf "%.2f\n", a / b }')"
awk -v a="$(tail -1 memory)" -v b="$bytes" 'BEGIN { printf "memory %d KiB, %.1f times the file\n", a, a * 1024 / b }'
"$odin" graph < /dev/null && cat told
