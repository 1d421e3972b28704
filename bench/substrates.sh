#!/usr/bin/env bash
# Times the program on carriers with 25 substrates and on carriers with none, and tells what a substrate takes that is registered
# and removed; then on a tool that has 50 substrates and on one that has none, and tells what these add to an entry.
#
# - 10,000 carriers come and go, as bench/carriers.sh has them, but with all 25 slots correctly occupied, and then 20,000 of them;
#   and 20,000 with all slots empty. Where the slot map is VERIFIED the substrates are registered, each with its rows of transport
#   and processing and that of its location; where the carrier is removed they go. A ratio of at most 2.2 is wanted of the first
#   two: twice the carriers take about twice the time. The difference of the last two is told for each of 500,000 substrates.
# - An operator has the tool local and remote again, 100,000 times in all, with a carrier of 25 substrates at each of its two ports,
#   whose slot maps are VERIFIED, and with none. At each entry the tool looks for the least row that is ready by itself. The
#   difference for an entry is told.
#
# The times are processor times, which a busy machine changes little. This is a measurement. It is no test, and no part of the
# merge gate. Build the program first:
#
#     cd crates/gem300_tool && rt run -- feed ../../examples/first.toml < ../../examples/communication.lines
set -euo pipefail
cd "$(dirname "$0")/.."
source bench/feeding.sh

carriers=10000
commands=100000
full=3333333333333333333333333
empty=1111111111111111111111111

# A link that is selected under system bytes 1.
front() {
    printf 'L+\nH 0000000AFFFF0000000100000001\n'
}

# So many carriers with this slot map: each is placed, proceeded with twice, canceled and removed.
come_and_go() {
    front
    awk -v count="$1" -v map="$2" 'BEGIN {
        proceed = "0105B10400000000411250726F63656564576974684361727269657241054341523031A501010100"
        cancel = "0105B10400000000410D43616E63656C4361727269657241054341523031A501010100"
        for (i = 0; i < count; i++) {
            print "S placed 1 CAR01 " map
            printf "H 00000032000083110000%08X%s\n", 3 * i + 2, proceed
            printf "H 00000032000083110000%08X%s\n", 3 * i + 3, proceed
            printf "H 0000002D000083110000%08X%s\n", 3 * i + 4, cancel
            print "S removed 1"
        }
    }'
}

# Two carriers with this slot map that stay, CAR01 and CAR02 at ports 1 and 2, and the operator's words.
stay() {
    front
    awk -v count="$commands" -v map="$1" 'BEGIN {
        for (port = 1; port <= 2; port++) {
            name = sprintf("%02X", 48 + port)
            proceed = "0105B10400000000411250726F636565645769746843617272696572410543415230" name "A5010" port "0100"
            printf "S placed %d CAR0%d %s\n", port, port, map
            printf "H 00000032000083110000%08X%s\n", 2 * port, proceed
            printf "H 00000032000083110000%08X%s\n", 2 * port + 1, proceed
        }
        for (i = 0; i < count; i++) print i % 2 == 0 ? "O local" : "O remote"
    }'
}

# Feeds what stands in $work/lines, and leaves the time in $seconds, where each of so many messages of stream 3 was answered with 0.
answered() {
    feed
    if [ "$(grep -c '0102A501000100$' "$work/out")" != "$1" ]; then
        echo "not each message was answered with 0" >&2
        exit 1
    fi
}

# The difference of two times for each of so many.
difference() {
    awk -v a="$1" -v b="$2" -v count="$3" -v what="$4" 'BEGIN { printf "%s: %.2f microseconds\n", what, (a - b) * 1e6 / count }'
}

come_and_go "$carriers" "$full" > "$work/lines"
answered $((3 * carriers))
once=$seconds
come_and_go $((2 * carriers)) "$full" > "$work/lines"
answered $((6 * carriers))
with=$seconds
come_and_go $((2 * carriers)) "$empty" > "$work/lines"
answered $((6 * carriers))
echo "carriers with 25 substrates each: $carriers in $once s, $((2 * carriers)) in $with s"
ratio "$once" "$with"
echo "$((2 * carriers)) carriers with none: $seconds s"
difference "$with" "$seconds" $((50 * carriers)) "a substrate that is registered and removed"

stay "$full" > "$work/lines"
answered 4
with=$seconds
stay "$empty" > "$work/lines"
answered 4
echo "$commands commands: $with s with 50 substrates, $seconds s with none"
difference "$with" "$seconds" "$commands" "what 50 substrates add to an entry"
