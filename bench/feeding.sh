# What the measures of `feed` share: where the program is, unless $program names one already, and how a run of it is measured.
# It is sourced, at the top of the repository, and leaves a folder in $work that goes when the script ends.
program=${program:-crates/gem300_tool/out/gem300_tool}
config=examples/first.toml
work=$(mktemp -d)
trap 'rm -rf "$work"' EXIT
TIMEFORMAT='%U %S'

if [ ! -x "$program" ]; then
    echo "$program is missing: build it first, as the head of this script says" >&2
    exit 2
fi

# Feeds the lines in $work/lines, and leaves the output in $work/out, the processor time in $seconds, and in $user what of it is the
# program's own, without the system's: by perf where it is there, since the shell's own times count the ticks of the clock, of which a
# short run has few.
feed() {
    if command -v perf > /dev/null; then
        perf stat -x, -e task-clock,user_time -o "$work/time" "$program" feed "$config" < "$work/lines" > "$work/out" 2> "$work/err" \
            || { cat "$work/err" >&2; exit 1; }
        seconds=$(awk -F, '/task-clock/ { printf "%.4f", $1 / 1000 }' "$work/time")
        user=$(awk -F, '/user_time/ { printf "%.4f", $1 / 1000000000 }' "$work/time")
    else
        { time "$program" feed "$config" < "$work/lines" > "$work/out" 2> "$work/err"; } 2> "$work/time" \
            || { cat "$work/err" >&2; exit 1; }
        seconds=$(awk 'END { printf "%.3f", $1 + $2 }' "$work/time")
        user=$(awk 'END { printf "%.3f", $1 }' "$work/time")
    fi
}

# Feeds the lines in $work/lines again, and leaves the peak memory of the program in $peak, in kilobytes.
feed_for_peak() {
    if [ -x /usr/bin/time ]; then
        /usr/bin/time -o "$work/peak" -f '%M' "$program" feed "$config" < "$work/lines" > /dev/null
    else
        "$program" feed "$config" < "$work/lines" > /dev/null &
        local pid=$! now
        while now=$(awk '/VmHWM/ { print $2 }' "/proc/$pid/status" 2> /dev/null) && [ -n "$now" ]; do
            echo "$now" > "$work/peak"
            sleep 0.01
        done
        wait "$pid"
    fi
    peak=$(cat "$work/peak")
}

# The instructions of a program on the lines in $work/lines, by valgrind; nothing where it is not there.
instructions() {
    command -v valgrind > /dev/null || return 0
    valgrind --tool=callgrind --callgrind-out-file=/dev/null "$1" feed "$config" < "$work/lines" 2>&1 > /dev/null \
        | awk '/refs/ { gsub(",", "", $NF); print $NF }'
}

# Prints the ratio of two times, of which the second is of twice as much.
ratio() {
    awk -v a="$1" -v b="$2" 'BEGIN {
        if (a > 0) printf "ratio %.2f (at most 2.2 is wanted)\n", b / a
        else print "ratio unknown: the first run was too short to be timed"
    }'
}
