#!/usr/bin/env bash
# Times the program on 10,000 and on 20,000 carriers that come and go, one after the other, and prints, of each run, the time and
# the peak memory for an entry of the history, and then the ratio of the times and what an entry more takes of memory.
#
# A carrier is placed at port 1, the host proceeds with it for its id and for its slot map, cancels it, and it is removed. That
# gives eight entries: two signals, three messages of the host, and three frames that are taken. The carrier is then forgotten,
# and the next one has its id. Before the first come three entries: the link, the select request and its response. No event is
# enabled, so no note is sent.
#
# A ratio of at most 2.2 is wanted: twice the carriers take about twice the time; and what an entry more takes of memory is the
# history's own, as bench/conversations.sh measures it. The times are processor times, which a busy machine changes little. The
# memory is the peak of the program's pages in kilobytes, as the system counts it. This is a measurement. It is no test, and no
# part of the merge gate. Build the program first:
#
#     cd crates/gem300_tool && rt run -- feed ../../examples/first.toml < ../../examples/communication.lines
set -euo pipefail
cd "$(dirname "$0")/.."
source bench/feeding.sh

# A link that is selected under system bytes 1, and so many carriers, whose messages have system bytes from 2 on:
# S3F17 L[U4 0, A ProceedWithCarrier, A CAR01, U1 1, L[]] twice, and S3F17 L[U4 0, A CancelCarrier, A CAR01, U1 1, L[]].
lines() {
    awk -v count="$1" 'BEGIN {
        print "L+"
        print "H 0000000AFFFF0000000100000001"
        proceed = "0105B10400000000411250726F63656564576974684361727269657241054341523031A501010100"
        cancel = "0105B10400000000410D43616E63656C4361727269657241054341523031A501010100"
        for (i = 0; i < count; i++) {
            print "S placed 1 CAR01 3331111111111111111111111"
            printf "H 00000032000083110000%08X%s\n", 3 * i + 2, proceed
            printf "H 00000032000083110000%08X%s\n", 3 * i + 3, proceed
            printf "H 0000002D000083110000%08X%s\n", 3 * i + 4, cancel
            print "S removed 1"
        }
    }'
}

# The select response, and so many times three S3F18 L[U1 0, L[]].
expected() {
    awk -v count="$1" 'BEGIN {
        print "+ 1"
        print "> 0000000AFFFF0000000200000001"
        for (i = 2; i < 3 * count + 2; i++) {
            printf "> 00000011000003120000%08X0102A501000100\n", i
        }
    }'
}

# Feeds so many carriers, prints what they took, and leaves the number of entries in $entries.
measure() {
    lines "$1" > "$work/lines"
    entries=$((8 * $1 + 3))
    feed
    if ! expected "$1" | cmp -s - "$work/out"; then
        echo "$1 carriers: the output is not what the messages are answered" >&2
        exit 1
    fi
    feed_for_peak
    awk -v count="$1" -v entries="$entries" -v seconds="$seconds" -v peak="$peak" 'BEGIN {
        printf "%d carriers, %d entries: %.2f s, %.2f microseconds an entry; ", count, entries, seconds, seconds * 1e6 / entries
        printf "peak memory %d kB, %.0f bytes an entry\n", peak, peak * 1024 / entries
    }'
}

measure 10000
first_seconds=$seconds
first_entries=$entries
first_peak=$peak
measure 20000
ratio "$first_seconds" "$seconds"
awk -v more="$((peak - first_peak))" -v entries="$((entries - first_entries))" 'BEGIN {
    printf "memory that an entry more takes: %.0f bytes\n", more * 1024 / entries
}'
