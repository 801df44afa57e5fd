#!/bin/bash
# Measures single commands of a session of the program beside dd, cat and wc, in one run: the medians of five rounds, and of the refused put the least of nine.
# The memory is measured once. ODIN names the program, else it is the one that was built here.
set -eu
export LC_ALL=C
cd "$(dirname "$0")/.."
odin=$(realpath "${ODIN:-crates/odin/out/odin}")
work=$(mktemp -d)
trap 'rm -rf "$work"' EXIT
cp crates/odin/data/units.dg "$work"
cd "$work"
zeros=1073741800
TIMEFORMAT='%R %U %S'

# The seconds that a command takes, with its input and without its output.
seconds() {
    local input=$1 start=$EPOCHREALTIME
    shift
    "$@" < "$input" > /dev/null 2> /dev/null
    awk -v a="$start" -v b="$EPOCHREALTIME" 'BEGIN { printf "%.3f\n", b - a }'
}
# A put with a name that is none, and its zeros: as many as an input may have after that line. They are written in large pieces, so that the pipe
# is full: a writer of small ones wakes its reader at each, and the times tell of that.
zeros_put() { printf 'put a?c %s\n' "$zeros"; dd if=/dev/zero bs=1M count="$zeros" iflag=count_bytes 2> /dev/null; }
# The seconds of a command that reads it from a pipe: by the clock, and its own user and system time.
piped() { { zeros_put | { time "$@" > /dev/null 2> /dev/null; }; } 2>&1 | awk '{ printf "%s %.3f\n", $1, $2 + $3 }'; }
median() { sort -n "$1" | sed -n 3p; }
# The least of a column.
least() { sort -n -k "$2,$2" "$1" | awk -v column="$2" 'NR == 1 { print $column }'; }
compare() { awk -v what="$1" -v a="$(median "$2.odin")" -v b="$(median "$2.dd")" 'BEGIN { printf "%s %s s, dd %s s, ratio %.2f\n", what, a, b, a / b }'; }
compare_least() {
    awk -v what="$1" -v a="$(least refused.odin "$2")" -v b="$(least refused.cat "$2")" -v c="$(least refused.wc "$2")" \
        'BEGIN { printf "%s: %s s, cat %s s, ratio %.2f, wc -c %s s, ratio %.2f\n", what, a, b, a / b, c, a / c }'
}

{ printf 'put a.c 0\n'; yes 'ask a.c' | head -500000; } > asks
yes 'ask a.c+debug' | head -200000 > refusals
yes 'plan a.c:count' | head -200000 > plans
# The replies have 31, 20 and 13 bytes, and each is taken by one write.
for _ in 1 2 3 4 5; do
    seconds asks "$odin" units.dg >> asks.odin
    seconds /dev/null dd bs=31 count=500000 if=/dev/zero of=/dev/null >> asks.dd
    seconds refusals "$odin" units.dg >> refusals.odin
    seconds /dev/null dd bs=20 count=200000 if=/dev/zero of=/dev/null >> refusals.dd
    seconds plans "$odin" units.dg >> plans.odin
    seconds /dev/null dd bs=13 count=200000 if=/dev/zero of=/dev/null >> plans.dd
done
# The programs are run in turn, and the least time of each is told. `wc -c` only reads, as odin does.
for _ in 1 2 3 4 5 6 7 8 9; do
    piped "$odin" units.dg >> refused.odin
    piped cat >> refused.cat
    piped wc -c >> refused.wc
done
zeros_put | /usr/bin/time -f %M -o memory "$odin" units.dg > reply

compare 'asks for a source' asks
compare 'asks that are refused' refusals
compare plans plans
compare_least 'refused put, the least by the clock' 1
compare_least 'refused put, the least user and system time' 2
echo "memory of the refused put $(cat memory) KiB, its reply: $(cat reply)"
