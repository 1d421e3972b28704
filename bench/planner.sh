#!/usr/bin/env bash
# Asks the planner for the next move of a tool with 25, 50 and 100 substrates, and prints the time for an answer; and of one with two
# chambers and with eight.
#
# Each module is Idle, and all substrates stand unfinished in their slots, with each chamber in their next step. Only the last of them may
# leave its slot, so that the robot's pick is looked for among all. An answer goes through the substrates a fixed number of times,
# so twice as many substrates are to take about twice the time: a ratio of at most 2.2 is wanted of the tool with eight chambers. Of eight
# chambers beside two, with as many substrates, a ratio of at most 1.3 is wanted. The times are processor times, which a busy machine changes
# little, the least of five runs each. This is a measurement. It is no test, and no part of the merge gate. Build the program first:
#
#     cd crates/benches && rt run -- each
set -euo pipefail
cd "$(dirname "$0")/.."

program=crates/benches/out/benches
rounds=400000
work=$(mktemp -d)
trap 'rm -rf "$work"' EXIT
TIMEFORMAT='%U %S'

if [ ! -x "$program" ]; then
    echo "$program is missing: build it first, as the head of this script says" >&2
    exit 2
fi

# One line for the time for an answer with so many substrates and chambers, which is left in $nanoseconds.
timing() {
    local least= run
    for run in 1 2 3 4 5; do
        { time "$program" planner "$1" "$rounds" "$2" > "$work/out"; } 2> "$work/time"
        if [ "$(cat "$work/out")" != "$rounds" ]; then
            echo "the planner found $(cat "$work/out") picks in $rounds rounds" >&2
            exit 1
        fi
        nanoseconds=$(awk -v rounds="$rounds" 'END { printf "%.1f", ($1 + $2) * 1e9 / rounds }' "$work/time")
        least=$(awk -v a="${least:-$nanoseconds}" -v b="$nanoseconds" 'BEGIN { print a < b ? a : b }')
    done
    nanoseconds=$least
    echo "$1 substrates, $2 chambers: $nanoseconds nanoseconds an answer"
}

# The ratio of the time in $nanoseconds to this one, of which at most so much is wanted.
ratio_to() {
    awk -v a="$1" -v b="$nanoseconds" -v most="$2" 'BEGIN { printf "ratio %.2f (at most %s is wanted)\n", b / a, most }'
}

timing 25 8
before=
for count in 50 100; do
    before=$nanoseconds
    timing "$count" 8
    ratio_to "$before" 2.2
done
for count in 25 50 100; do
    timing "$count" 2
    before=$nanoseconds
    timing "$count" 8
    ratio_to "$before" 1.3
done
