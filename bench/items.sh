#!/usr/bin/env bash
# Times the reading of a binary item of 16 megabytes and of a list of 100,000 small items, in megabytes a second, each
# beside a plain copy of the same bytes in the same run. Then lists that announce sixteen times 16,777,215 items, of which
# none is there, are read with 64 megabytes of memory: no more may be taken for what is announced.
#
# Wanted: the binary item at no less than half of the copy's speed. The times are processor times, which a busy machine
# changes little. This is a measurement. It is no test, and no part of the merge gate. Build the program first:
#
#     cd crates/benches && rt run -- each
set -euo pipefail
cd "$(dirname "$0")/.."

program=crates/benches/out/benches
TIMEFORMAT='%U %S'

if [ ! -x "$program" ]; then
    echo "$program is missing: build it first, as the head of this script says" >&2
    exit 2
fi

# The processor time of so many readings or copies of an item, in seconds, and the time of none taken off.
seconds() {
    local all none
    all=$({ time "$program" items "$1" "$2" "$3" > /dev/null; } 2>&1)
    none=$({ time "$program" items "$1" "$2" 0 > /dev/null; } 2>&1)
    awk -v all="$all" -v none="$none" 'BEGIN { split(all, a); split(none, n); print a[1] + a[2] - n[1] - n[2] }'
}

# One line for an item: its bytes, how often it is read, and both speeds.
measure() {
    local item=$1 bytes=$2 count=$3 decode copy
    decode=$(seconds decode "$item" "$count")
    copy=$(seconds copy "$item" "$count")
    awk -v item="$item" -v bytes="$bytes" -v count="$count" -v decode="$decode" -v copy="$copy" 'BEGIN {
        all = bytes * count / 1e6
        if (decode <= 0 || copy <= 0) { print item ": too short to be timed"; exit }
        printf "%s: decode %.0f MB/s, copy %.0f MB/s, decode at %.2f of the copy\n", item, all / decode, all / copy, copy / decode
    }'
}

measure binary 16777219 60
measure list 600004 60

# Lists inside one another that announce what isn't there, with little memory.
refused=$(ulimit -v 65536 && "$program" items refuse hostile 100)
if [ "$refused" != 100 ]; then
    echo "hostile: refused $refused times of 100, so memory was taken for what is not there" >&2
    exit 1
fi
echo "hostile: refused 100 times of 100 with 64 MB of memory"
