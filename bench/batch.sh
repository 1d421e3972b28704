#!/usr/bin/env bash
# Times batches of 40, 80 and 160 carriers, each in one history, and prints of each the time, how many entries of the history that is
# a second, and how many bytes an entry takes, and then the ratios of the times. Then it does the same for batches of 40 and 160 carriers of
# larger plants, of eight chambers and four ports: over a route of one step that each chamber can do, and over one of six steps.
#
# A batch (docs/profile/batch.md): for each carrier of 25 substrates six lines, and 200 commands (of one step) that are done in a drawn order. All
# events are enabled, and each report is taken and answered, an entry each; so is each command fetched and done.
#
# Twice the carriers should take about twice the time: a ratio of at most 2.2 is wanted. The times are processor times, the least of
# three runs each. The bytes of an entry are those by which the peak memory of 160 carriers is over that of 40, for each entry more.
# How many entries there are is the least limit of entries with which the batch completes. Of a command of a larger plant at most 1.3 times
# the time of one of two chambers and two ports is wanted, and as many bytes of an entry. With valgrind on the machine, and the word
# `profile`, the functions are told in which a batch of 4 carriers spends its instructions. This is a measurement. It is no test, and no
# part of the merge gate. Build the program first:
#
#     cd crates/gem300_tool && rt run -- feed ../../examples/first.toml < ../../examples/communication.lines
set -euo pipefail
cd "$(dirname "$0")/.."
source bench/feeding.sh

# What the configuration says of the plant, and how many commands a substrate takes.
plant=
commands=8

# A configuration of the plant, in this file, whose limit of entries is so high.
configure() {
    printf 'communication = "communicating"\nmax_entries = %d\nmax_bytes = 536_870_912\n%b' "$2" "$plant" > "$work/$1.toml"
}

# How many entries a batch of so many carriers makes: the least limit with which it completes.
entries_of() {
    local low=1 high=4000000 middle
    while [ "$low" -lt "$high" ]; do
        middle=$(((low + high) / 2))
        configure limit "$middle"
        if "$program" batch 7 "$1" "$work/limit.toml" > /dev/null 2>&1; then
            high=$middle
        else
            low=$((middle + 1))
        fi
    done
    echo "$low"
}

# The peak memory of a batch of so many carriers, in kilobytes.
peak_of() {
    if [ -x /usr/bin/time ]; then
        /usr/bin/time -o "$work/peak" -f '%M' "$program" batch 7 "$1" "$work/batch.toml" > /dev/null
    else
        "$program" batch 7 "$1" "$work/batch.toml" > /dev/null &
        local pid=$! now
        while now=$(awk '/VmHWM/ { print $2 }' "/proc/$pid/status" 2> /dev/null) && [ -n "$now" ]; do
            echo "$now" > "$work/peak"
            sleep 0.01
        done
        wait "$pid"
    fi
    cat "$work/peak"
}

# Runs a batch of so many carriers three times; the least time is left in $seconds, and how many entries it makes in $entries.
measure() {
    local least= run
    configure batch 4000000
    for run in 1 2 3; do
        { time "$program" batch 7 "$1" "$work/batch.toml" > "$work/out" 2> "$work/told"; } 2> "$work/time"
        grep -qx "completed $1" "$work/out"
        grep -qx "done $((25 * commands * $1))" "$work/out"
        seconds=$(awk 'END { printf "%.2f", $1 + $2 }' "$work/time")
        least=$(awk -v a="${least:-$seconds}" -v b="$seconds" 'BEGIN { print a < b ? a : b }')
    done
    seconds=$least
    entries=$(entries_of "$1")
    awk -v carriers="$1" -v entries="$entries" -v seconds="$seconds" \
        'BEGIN { printf "%d carriers, %d entries: %.2f s, %.0f entries a second\n", carriers, entries, seconds, entries / seconds }'
}

# The bytes of an entry, by the peak memory of 160 carriers over that of 40 with so many entries less.
weigh() {
    awk -v few="$(peak_of 40)" -v many="$(peak_of 160)" -v more="$1" \
        'BEGIN { printf "%.0f bytes an entry: %d kB with 40 carriers, %d kB with 160\n", (many - few) * 1024 / more, few, many }'
}

# The nanoseconds of a command of 160 carriers that took so many seconds.
per_command() {
    awk -v seconds="$1" -v commands="$commands" 'BEGIN { printf "%.0f", seconds * 1e9 / (160 * 25 * commands) }'
}

# The same of a larger plant, in words and by its lines of the configuration, beside the nanoseconds of a command of the first.
measure_plant() {
    local name=$1 few
    plant=$2
    commands=$3
    echo "$name:"
    measure 40
    few=$entries
    measure 160
    awk -v was="$first_command" -v is="$(per_command "$seconds")" \
        'BEGIN { printf "%d ns a command, and %d with two chambers and two ports: ratio %.2f (at most 1.3 is wanted)\n", is, was, is / was }'
    weigh "$((entries - few))"
}

configure batch 4000000
if [ "${1:-}" = profile ]; then
    valgrind --tool=callgrind --callgrind-out-file="$work/calls" "$program" batch 7 4 "$work/batch.toml" > /dev/null 2>&1
    callgrind_annotate "$work/calls" | head -40
    exit
fi

measure 40
first=$seconds
few=$entries
measure 80
second=$seconds
ratio "$first" "$second"
measure 160
ratio "$second" "$seconds"
weigh "$((entries - few))"
first_command=$(per_command "$seconds")

larger='version = 2\nchambers = 8\nports = 4\nrecipes = [{ name = "R1", route = '
measure_plant "eight chambers and four ports, one step" "$larger[[1, 2, 3, 4, 5, 6, 7, 8]] }]\n" 8
measure_plant "eight chambers and four ports, six steps" "$larger[[1], [2, 3], [4], [5], [6, 7], [8]] }]\n" 23
