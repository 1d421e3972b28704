#!/usr/bin/env bash
# Feeds a cutter the length field FFFFFFFF, a header and a hundred megabytes behind them, in pieces of 1, 7, 4,096 and 65,536 bytes,
# and prints the peak memory beside that of a run that is fed the length field and the header alone.
#
# Wanted: no more than a megabyte over that run, whatever the pieces are: of a frame that will be refused fourteen bytes are kept, and
# room for no more. The memory is the peak of the program's pages in kilobytes, as the system counts it; the processor time of each run
# stands behind it. This is a measurement. It is no test, and no part of the merge gate. Build the program first:
#
#     cd crates/benches && rt run -- each
set -euo pipefail
cd "$(dirname "$0")/.."

program=crates/benches/out/benches
bytes=100000000
work=$(mktemp -d)
trap 'rm -rf "$work"' EXIT

if [ ! -x "$program" ]; then
    echo "$program is missing: build it first, as the head of this script says" >&2
    exit 2
fi
if [ ! -x /usr/bin/time ]; then
    echo "/usr/bin/time is missing, which tells the peak memory" >&2
    exit 2
fi

# Feeds so many bytes in pieces of so many; the peak memory is left in $peak, the processor time in $seconds.
feed() {
    /usr/bin/time -o "$work/told" -f '%M %U %S' "$program" cutter "$1" "$2" 1 > "$work/out"
    if [ "$(cat "$work/out")" != 14 ]; then
        echo "$(cat "$work/out") bytes are kept, and not 14" >&2
        exit 1
    fi
    read -r peak user sys < "$work/told"
    seconds=$(awk -v user="$user" -v sys="$sys" 'BEGIN { print user + sys }')
}

status=0
for piece in 1 7 4096 65536; do
    feed "$piece" 0
    without=$peak
    feed "$piece" "$bytes"
    echo "pieces of $piece: peak memory $peak kB, and $without kB without the $bytes bytes; $seconds s of processor time"
    if [ $((peak - without)) -gt 1024 ]; then
        echo "that is more than a megabyte over it" >&2
        status=1
    fi
done
exit $status
