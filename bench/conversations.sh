#!/usr/bin/env bash
# Times the program on 100,000 and on 200,000 conversations, and prints, of each, the time and the peak memory for an entry
# of the history, and then the ratio of the times and what an entry more takes of memory.
#
# A conversation is an S1F13 of the host with its S1F14, and an S1F1 with its S1F2, under system bytes of their own, on a
# link that was selected once. It gives four entries: two messages, and two frames that are taken. Before the first come
# three: the link, the select request and its response. So 200,000 conversations give 800,003 entries, with 400,000 bytes of
# text, of 13.2 megabytes of input. The known configuration has room for 4,000,000 entries and 536,870,912 bytes of text, and
# a run reads 4,294,967,296 bytes of input; a million conversations would meet the first of these limits.
#
# A ratio of at most 2.2 is wanted: twice the conversations take about twice the time. The times are processor times, which a
# busy machine changes little. The memory is the peak of the program's pages in kilobytes, as the system counts it. This is a
# measurement. It is no test, and no part of the merge gate. Build the program first:
#
#     cd crates/gem300_tool && rt run -- feed ../../examples/first.toml < ../../examples/communication.lines
set -euo pipefail
cd "$(dirname "$0")/.."
source bench/feeding.sh

# A link, a select request with system bytes 1, and so many conversations, with system bytes from 2 on.
lines() {
    awk -v count="$1" 'BEGIN {
        print "L+"
        print "H 0000000AFFFF0000000100000001"
        for (i = 1; i <= count; i++) {
            printf "H 0000000C0000810D0000%08X0100\n", 2 * i
            printf "H 0000000A000081010000%08X\n", 2 * i + 1
        }
    }'
}

# Each frame that is to go out: the select response, and so many times S1F14 with COMMACK 0 and S1F2.
expected() {
    awk -v count="$1" 'BEGIN {
        tool = "0102410647454D3330304106312E302E3030"
        print "+ 1"
        print "> 0000000AFFFF0000000200000001"
        for (i = 1; i <= count; i++) {
            printf "> 000000210000010E0000%08X0102210100%s\n", 2 * i, tool
            printf "> 0000001C000001020000%08X%s\n", 2 * i + 1, tool
        }
    }'
}

# Feeds so many conversations, prints what they took, and leaves the number of entries in $entries.
measure() {
    lines "$1" > "$work/lines"
    entries=$((4 * $1 + 3))
    feed
    if ! expected "$1" | cmp -s - "$work/out"; then
        echo "$1 conversations: the output is not what the messages are answered" >&2
        exit 1
    fi
    feed_for_peak
    awk -v count="$1" -v entries="$entries" -v seconds="$seconds" -v peak="$peak" 'BEGIN {
        printf "%d conversations, %d entries: %.2f s, %.2f microseconds an entry; ", count, entries, seconds, seconds * 1e6 / entries
        printf "peak memory %d kB, %.0f bytes an entry\n", peak, peak * 1024 / entries
    }'
}

measure 100000
first_seconds=$seconds
first_entries=$entries
first_peak=$peak
measure 200000
ratio "$first_seconds" "$seconds"
awk -v more="$((peak - first_peak))" -v entries="$((entries - first_entries))" 'BEGIN {
    printf "memory that an entry more takes: %.0f bytes\n", more * 1024 / entries
}'
