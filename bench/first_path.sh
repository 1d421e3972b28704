#!/usr/bin/env bash
# Times the program on 100,000 and on 200,000 linktest requests, and prints both times, their ratio and the peak memory.
#
# A ratio of at most 2.2 is wanted: twice the lines take about twice the time. The times are processor times, which a busy
# machine changes little. This is a measurement. It is no test, and no part of the merge gate. Build the program first:
#
#     cd crates/gem300_tool && rt run -- feed ../../examples/first.toml < ../../examples/first.lines
set -euo pipefail
cd "$(dirname "$0")/.."
source bench/feeding.sh

# A link, a select request, and so many linktest requests.
lines() {
    printf 'L+\nH 0000000AFFFF0000000100000001\n'
    # head ends yes, by reading no more of it
    (yes 'H 0000000AFFFF0000000500000002' || true) | head -n "$1"
}

# Feeds so many linktest requests, and prints what it took.
measure() {
    lines "$1" > "$work/lines"
    feed
    feed_for_peak
    echo "$1 linktest requests: $seconds s, peak memory $peak kB, $(wc -l < "$work/out") lines printed"
}

measure 100000
first=$seconds
measure 200000
ratio "$first" "$seconds"
