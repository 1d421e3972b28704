#!/usr/bin/env bash
# Times the program on 40 and on 80 lots of 25 substrates, one after the other in one history, and prints of each run the time for an
# entry, and then the ratio of the times.
#
# A lot: a carrier with 25 substrates is placed at port 1, the host proceeds with it for its id and for its slot map, and creates a
# process job of all its slots and a control job of that. The tool gives 200 commands, each of which is done as soon as it is told.
# Then the carrier is removed. The names of carrier and jobs come again with each lot; the control job that is COMPLETED is replaced.
# No event is enabled.
#
# Which commands come is the tool's to say, so the lines of a run are written by a first run, in which each command that is printed is
# answered; the runs that are timed are given these lines. A ratio of at most 2.2 is wanted: twice the lots take about twice the time.
# The times are processor times, the least of five runs each; on a machine that is shared they differ by a third from one call of this to
# the next. With valgrind on the machine the instructions are told as well, which are the same in every run. This is a measurement. It is
# no test, and no part of the merge gate.
# Build the program first:
#
#     cd crates/gem300_tool && rt run -- feed ../../examples/first.toml < ../../examples/communication.lines
set -euo pipefail
cd "$(dirname "$0")/.."
source bench/feeding.sh

# The lot of this number: its messages have system bytes from 2 on, four of them S3F17 L[U4 0, A ProceedWithCarrier, A CAR01, U1 1, L[]]
# twice, S16F11 L[U4 0, A PJ1, B 0D, L[L[A CAR01, L[]]], L[U1 1, A R1, L[]], BOOL true, L[]], and S14F9 L[A, A ControlJob, L[L[A ObjID,
# A CJ1], L[A ProcessingCtrlSpec, L[A PJ1]]]].
lot() {
    local proceed=0105B10400000000411250726F63656564576974684361727269657241054341523031A501010100
    echo "S placed 1 CAR01 3333333333333333333333333"
    printf 'H 00000032000083110000%08X%s\n' $((4 * $1 + 2)) $proceed $((4 * $1 + 3)) $proceed
    printf 'H 000000370000900B0000%08X%s\n' $((4 * $1 + 4)) \
        0107B104000000004103504A3121010D010101024105434152303101000103A501014102523101002501010100
    printf 'H 0000004700008E090000%08X%s\n' $((4 * $1 + 5)) \
        01034100410A436F6E74726F6C4A6F620102010241054F626A49444103434A310102411250726F63657373696E674374726C5370656301014103504A31
}

# A link that is selected under system bytes 1, and so many lots. Each command that is read is done, and behind the last of a lot the
# carrier is removed.
answers() {
    local finished=0 mark module number task
    echo L+
    echo H 0000000AFFFF0000000100000001
    lot 0
    while [ $finished -lt $((200 * $1)) ] && read -r mark module number task; do
        [ "$mark" = "!" ] || continue
        echo "S done $module $number"
        finished=$((finished + 1))
        if [ $((finished % 200)) -eq 0 ]; then
            echo "S removed 1"
            [ $finished -eq $((200 * $1)) ] || lot $((finished / 200))
        fi
    done
    echo O quit
    cat > /dev/null
}

# Writes the lines of so many lots.
write_lines() {
    rm -f "$work/told"
    mkfifo "$work/told"
    "$program" feed "$config" < <(answers "$1" < "$work/told" | tee "$work/lines") > "$work/told"
}

# Feeds so many lots five times, and prints what the quickest run took.
measure() {
    local least= run
    write_lines "$1"
    for run in 1 2 3 4 5; do
        feed
        least=$(awk -v a="${least:-$seconds}" -v b="$seconds" 'BEGIN { print a < b ? a : b }')
    done
    seconds=$least
    awk -v count="$1" -v seconds="$seconds" '
        FNR == NR { if (/^[>!]/) taken++; next }
        { posted++ }
        END { printf "%d lots, %d entries: %.3f s, %.2f microseconds an entry\n", count, taken + posted, seconds, seconds * 1e6 / (taken + posted) }
    ' "$work/out" "$work/lines"
}

measure 40
first_seconds=$seconds
first_count=$(instructions "$program")
measure 80
ratio "$first_seconds" "$seconds"
count=$(instructions "$program")
if [ -n "$count" ]; then
    awk -v a="$first_count" -v b="$count" 'BEGIN { printf "instructions: %.0f and %.0f, ratio %.3f\n", a, b, b / a }'
fi
