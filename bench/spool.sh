#!/usr/bin/env bash
# Fills a spool and empties it, and prints the peak memory beside the notes' own bytes, and the time for a note.
#
# - Memory: a spool of 65,536 notes, the greatest there may be, is filled and emptied once, with texts of 100, 1,000 and
#   10,000 bytes. The notes' own bytes are those of their texts. The rest is the spool's room, 48 bytes for each note that
#   there may be, what the allocator keeps for each text, and the program.
# - Time: spools of 1,000 to 65,536 notes, with texts of 100 bytes, are filled and emptied until some 6.5 million notes have
#   come out. The time for a note is that of its push, of taking it out, and of making and ending its text.
#
# Wanted: fewer than 100 bytes for a note beside its text, and a time for a note that stays about the same: at 65,536 no more
# than twice that at 1,000, of which the processor's caches take the most. The times are processor times, which a busy machine
# changes little. The memory is the peak of the program's pages in kilobytes, as the system counts it. This is a measurement.
# It is no test, and no part of the merge gate. Build the program first:
#
#     cd crates/benches && rt run -- each
set -euo pipefail
cd "$(dirname "$0")/.."

program=crates/benches/out/benches
all=6553600
work=$(mktemp -d)
trap 'rm -rf "$work"' EXIT
TIMEFORMAT='%U %S'

if [ ! -x "$program" ]; then
    echo "$program is missing: build it first, as the head of this script says" >&2
    exit 2
fi
if [ ! -x /usr/bin/time ]; then
    echo "/usr/bin/time is missing, which tells the peak memory" >&2
    exit 2
fi

# Ends the script where the program told of fewer notes than this that came out at their place.
whole() {
    if [ "$(cat "$work/out")" != "$1" ]; then
        echo "$(cat "$work/out") notes of $1 came out at their place" >&2
        exit 1
    fi
}

# One line for the memory of 65,536 notes with texts of so many bytes.
memory() {
    local bytes=$1
    /usr/bin/time -o "$work/peak" -f '%M' "$program" spool 65536 "$bytes" 1 > "$work/out"
    whole 65536
    awk -v bytes="$bytes" 'END {
        own = 65536 * bytes / 1024
        printf "65536 notes of %d bytes: peak memory %d kB, of which %d kB are their own; %.0f bytes more for a note\n", \
            bytes, $1, own, ($1 - own) * 1024 / 65536
    }' "$work/peak"
}

# One line for the time for a note in a spool of so many, which is left in $nanoseconds.
timing() {
    local capacity=$1 rounds=$((all / $1))
    { time "$program" spool "$capacity" 100 "$rounds" > "$work/out"; } 2> "$work/time"
    whole $((capacity * rounds))
    nanoseconds=$(awk -v notes=$((capacity * rounds)) 'END { printf "%.1f", ($1 + $2) * 1e9 / notes }' "$work/time")
    echo "a spool of $capacity: $nanoseconds nanoseconds a note"
}

memory 100
memory 1000
memory 10000

timing 1000
first=$nanoseconds
for capacity in 2000 4000 8000 16000 32000 65536; do
    timing "$capacity"
done
awk -v a="$first" -v b="$nanoseconds" 'BEGIN { printf "ratio %.2f (at most 2 is wanted)\n", b / a }'
