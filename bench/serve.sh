#!/usr/bin/env bash
# Measures the tool while it serves a host over TCP at 127.0.0.1, beside a bare echo, written in the same language, that sends each S1F1
# back as it is; and prints all in one go, with what is wanted beside it:
#
# - the time of a round trip, S1F1 and its answer, of 20,000 that one client asks one after the other, of the echo and of the tool: the
#   median, that below which 99 of 100 are, and the longest; and the processor time of the tool for a message. Wanted: a median of at
#   most 4 times the echo's, 99 of 100 below 0.3 ms on a machine that is quiet, and at most 10 microseconds of processor time;
# - the same with as many busy loops beside it as the machine has processors. Wanted: a median of at most 10 times the echo's;
# - how many S1F1 a second are answered that are sent without waiting, of 300,000, and the processor time for one. Wanted: 150,000;
# - the time from one Done of the modules to the next, over a lot of 25 wafers, 200 commands, at a tool that does nothing else.
#   Wanted: at most 50 microseconds;
# - how many events a second the history takes while all actors are busy: a host presses with 25 S1F1 at a time, an operator says
#   200,000 lines, the modules process a lot of 25 wafers, and the clock ticks;
# - the resident memory of the tool before and after 100,000 sessions, each of which came up, was selected and was ended by its
#   peer, and what that makes for an entry of the history, beside what an entry of `feed` takes on the same sessions;
# - the processor time of a tool that nobody asks, over a minute without a link, and over one with a link that is selected. Wanted:
#   less than 0.3 s.
#
# Times by the clock are changed much by a busy machine. Processor time is counted by the system in ticks, of ten milliseconds mostly.
# Memory is the pages that the program holds, in kilobytes, as the system counts them. A smaller measure is had by $ASKS, $FLOWS,
# $LINES_SAID, $SESSIONS and $IDLE_SECONDS, and another port by $PORT: this one and the next nine have to be free. This is a measurement.
# It is no test, and no part of the merge gate. Build both programs first:
#
#     cd crates/gem300_tool && rt run -- feed ../../examples/first.toml < ../../examples/communication.lines
#     cd crates/benches && rt run -- each
set -euo pipefail
cd "$(dirname "$0")/.."
source bench/feeding.sh

client=${CLIENT:-crates/benches/out/benches}
port=${PORT:-21300}
asks=${ASKS:-20000}
flows=${FLOWS:-300000}
lines_said=${LINES_SAID:-200000}
sessions=${SESSIONS:-100000}
idle_seconds=${IDLE_SECONDS:-60}
started=

if [ ! -x "$client" ]; then
    echo "$client is missing: build it first, as the head of this script says" >&2
    exit 2
fi

# Ends what this script started and still runs, by its number.
end_all() {
    for process in $started; do
        kill "$process" 2> /dev/null || true
    done
    rm -rf "$work"
}
trap end_all EXIT

fail() {
    echo "$1" >&2
    [ ! -s "$work/err" ] || cat "$work/err" >&2
    exit 1
}

now() {
    date +%s.%N
}

# Starts a tool at the next port, whose communication begins so and whose script is written to descriptor 3, and leaves its process
# in $tool.
start_tool() {
    port=$((port + 1))
    printf 'communication = "%s"\ntcp_port = %d\n' "$1" "$port" > "$work/serve.toml"
    rm -f "$work/script"
    mkfifo "$work/script"
    "$program" serve "$work/serve.toml" < "$work/script" > "$work/log" 2> "$work/err" &
    tool=$!
    started="$started $tool"
    exec 3> "$work/script"
}

# Waits until the tool has ended, whose script is over.
await_tool() {
    exec 3>&-
    wait "$tool" || fail "the tool ended with status $?"
}

# A count of the tool's log.
logged() {
    awk -v name="$1" '$1 == name { print $2 }' "$work/log"
}

# The resident memory of the tool, in kilobytes.
resident() {
    awk '/VmRSS/ { print $2 }' "/proc/$tool/status"
}

# The processor time of the tool so far, in ticks.
ticks() {
    awk '{ sub(/.*\) /, ""); print $12 + $13 }' "/proc/$tool/stat"
}

# The processor time of the tool since so many ticks, in seconds.
seconds_since() {
    awk -v a="$1" -v b="$(ticks)" -v hz="$(getconf CLK_TCK)" 'BEGIN { printf "%.2f", (b - a) / hz }'
}

# So many seconds for each of so many, in microseconds.
each_of() {
    awk -v all="$1" -v n="$2" 'BEGIN { printf "%.1f", all * 1e6 / n }'
}

# Asks so often at the port, and leaves the times of a round trip in nanoseconds in $median, $most and $longest.
measure_trips() {
    local times
    times=$("$client" trips "$port" "$asks") || fail 'not all S1F1 were answered'
    read -r median most longest <<< "$times"
}

print_trips() {
    awk -v who="$1" -v m="$median" -v p="$most" -v l="$longest" 'BEGIN {
        printf "  %-5s median %6.1f, 99 of 100 below %7.1f, longest %8.1f microseconds\n", who, m / 1000, p / 1000, l / 1000
    }'
}

# Measures round trips, and says how many times the echo's the median may be.
measure_round_trips() {
    local before echoed seconds
    port=$((port + 1))
    "$client" echo "$port" > "$work/echoed" &
    started="$started $!"
    measure_trips
    print_trips echo
    echoed=$median
    start_tool communicating
    before=$(ticks)
    measure_trips
    seconds=$(seconds_since "$before")
    echo 'O quit' >&3
    await_tool
    print_trips tool
    awk -v a="$echoed" -v b="$median" -v most="$1" 'BEGIN { printf "  %.1f times the echo (wanted: at most %d)\n", b / a, most }'
    echo "  $(each_of "$seconds" "$asks") microseconds of processor time a message (wanted: at most 10)"
}

measure_quiet_trips() {
    echo "$asks round trips (wanted: 99 of 100 below 300 microseconds where the machine is quiet):"
    measure_round_trips 4
}

# Measures round trips beside as many busy loops as there are processors.
measure_busy_trips() {
    local loops=
    for _ in $(seq "$(nproc)"); do
        while :; do :; done &
        loops="$loops $!"
    done
    started="$started $loops"
    echo "$asks round trips beside $(nproc) busy loops:"
    measure_round_trips 10
    for process in $loops; do
        kill "$process"
        wait "$process" 2> /dev/null || true
    done
}

measure_flow() {
    local before rate seconds
    start_tool communicating
    before=$(ticks)
    rate=$("$client" flow "$port" "$flows") || fail 'not all S1F1 were answered'
    seconds=$(seconds_since "$before")
    echo 'O quit' >&3
    await_tool
    echo "$flows S1F1 without waiting: $rate a second (wanted: 150000)"
    echo "  $(each_of "$seconds" "$flows") microseconds of processor time a message"
}

# S3F17 twice, by which CAR01 proceeds; S16F11, which creates a process job of all its wafers; and S14F9, which creates a control
# job that starts by itself. Each has system bytes that the S1F1 never come to.
proceed=0105B10400000000411250726F63656564576974684361727269657241054341523031A501010100
process_job=0107B104000000004103504A3121010D010101024105434152303101000103A501014102523101002501010100
control_job=01034100410A436F6E74726F6C4A6F620103010241054F626A49444103434A310102411250726F63657373696E67
control_job+=4374726C5370656301014103504A310102410B53746172744D6574686F64250101
lot=(
    "00000032000083110000F0000001$proceed"
    "00000032000083110000F0000002$proceed"
    "000000370000900B0000F0000003$process_job"
    "0000005900008E090000F0000004$control_job"
)

# A lot at a tool that does nothing else. The script waits until the carrier may be taken away, and ends the run.
measure_lot() {
    local each
    start_tool communicating
    printf 'S placed 1 CAR01 3333333333333333333333333\n' >&3
    sleep 1
    printf 'W 1\nS removed 1\nO quit\n' >&3
    each=$("$client" lot "$port" 200 "${lot[@]}") || fail 'the client failed'
    await_tool
    [ "$(logged 'done')" = 200 ] || fail 'the lot was not processed'
    awk -v each="$each" 'BEGIN { printf "from one Done to the next: %.1f microseconds (wanted: at most 50)\n", each / 1000 }'
}

measure_all_busy() {
    local begin end pressing
    start_tool communicating
    echo 'S placed 1 CAR01 3333333333333333333333333' >&3
    sleep 1
    begin=$(now)
    "$client" press "$port" 1000000 "${lot[@]}" > "$work/pressed" &
    pressing=$!
    started="$started $pressing"
    awk -v count="$lines_said" 'BEGIN { for (i = 0; i < count; i++) print "O clear 4294967295" }' >&3
    printf 'W 1\nS removed 1\nO quit\n' >&3
    await_tool
    end=$(now)
    wait "$pressing" || fail 'the client failed'
    [ "$(logged completed)" = 1 ] || fail 'the lot was not processed'
    awk -v a="$begin" -v b="$end" -v entries="$(logged entries)" -v asked="$(cat "$work/pressed")" -v said="$lines_said" \
        -v acts="$(logged 'done')" 'BEGIN {
        printf "all actors busy: %d entries in %.1f s, %.0f a second; of them %d S1F1, %d lines of the operator, %d commands\n", \
            entries, b - a, entries / (b - a), asked, said, acts
    }'
}

# Sessions as `feed` has them: the link, the select request, and the end of the link.
lines() {
    awk -v count="$1" 'BEGIN {
        for (i = 0; i < count; i++) printf "L+\nH 0000000AFFFF0000000100000001\nL-\n"
    }'
}

# What an entry more takes in `feed`, in bytes, under the same configuration; left in $in_feed. A session has four: the link, the
# select request, its response, and the end of the link.
measure_feed() {
    local least
    config=$work/serve.toml
    lines 1 > "$work/lines"
    feed_for_peak
    least=$peak
    lines "$sessions" > "$work/lines"
    feed_for_peak
    in_feed=$(awk -v a="$least" -v b="$peak" -v n="$sessions" 'BEGIN { printf "%.0f", (b - a) * 1024 / (4 * n) }')
}

# Communication is DISABLED, so that the tool sends nothing but the select response. A session has an entry more than in `feed`, by
# which its writer ends.
measure_memory() {
    local before after visits
    start_tool disabled
    [ "$("$client" visit "$port" 10)" = 10 ] || fail 'the tool was not visited'
    before=$(resident)
    # The client ends its link and connects anew within microseconds, and is never turned away.
    visits=$("$client" visit "$port" "$sessions") || visits=0
    [ "$visits" = "$sessions" ] || fail "of $sessions sessions one after another the tool gave $visits"
    sleep 1
    after=$(resident)
    echo 'O quit' >&3
    await_tool
    measure_feed
    awk -v a="$before" -v b="$after" -v n="$(logged sessions)" -v entries="$(logged entries)" -v feed="$in_feed" 'BEGIN {
        printf "%d sessions, %d entries: %d kB before and %d kB after, %.0f bytes an entry; in feed %d bytes an entry\n", \
            n, entries, a, b, (b - a) * 1024 / entries, feed
    }'
}

# Measures a tool that nobody asks, with a link or without.
measure_idle() {
    local before seconds
    start_tool communicating
    if [ "$1" = 'with a link' ]; then
        "$client" stay "$port" $((idle_seconds + 5)) > /dev/null &
        started="$started $!"
    fi
    sleep 2
    before=$(ticks)
    sleep "$idle_seconds"
    seconds=$(seconds_since "$before")
    echo 'O quit' >&3
    await_tool
    echo "idle for $idle_seconds s $1: $seconds s of processor time (wanted: less than 0.3 a minute)"
}

measure_quiet_trips
measure_busy_trips
measure_flow
measure_lot
measure_all_busy
measure_memory
measure_idle 'without a link'
measure_idle 'with a link'
