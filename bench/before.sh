#!/usr/bin/env bash
# Times a program of before and the present one side by side in one run, and prints, of each load, the user time of both, which is
# processor time without that of the system, the ratio of the present one's to that of before, and how much memory both take at most.
#
#     bench/before.sh BEFORE [PRESENT]
#
# BEFORE is a built program that was kept, and PRESENT the one that is built now where it is left out. The loads are
#
# - 400,000 S1F1, on a link that is selected, behind one S1F13;
# - 100,000 commands of an operator that are reported by S6F11, each with its S6F12, as bench/reports.sh has them;
# - 20,000 carriers that come and go, as bench/carriers.sh has them.
#
# Both programs must print the same. They run in turn, twenty times each or as often as $RUNS says, and of each the mean time
# counts: the system tells user time by its ticks, so that one short run says little. A busy machine slows the runs of both, and a run
# beside it tells more than a figure of another day. With valgrind on
# the machine the instructions of both are told as well, of a shorter load of each kind; these are the same in every run. A
# ratio of at most 1.05 is wanted of a change that is not about time. This is a measurement. It is no test, and no part of the
# merge gate. Build the program first:
#
#     cd crates/gem300_tool && rt run -- feed ../../examples/first.toml < ../../examples/communication.lines
set -euo pipefail
if [ $# -lt 1 ] || [ ! -x "$1" ]; then
    echo "usage: bench/before.sh BEFORE [PRESENT]: the program of before, and the one of now" >&2
    exit 2
fi
before=$(realpath "$1")
program=${2:+$(realpath "$2")}
cd "$(dirname "$0")/.."
source bench/feeding.sh
now=$program

# A link that is selected under system bytes 1.
front() {
    printf 'L+\nH 0000000AFFFF0000000100000001\n'
}

# So many S1F1 behind an S1F13.
messages() {
    front
    awk -v count="$1" 'BEGIN {
        printf "H 0000000C0000810D0000%08X0100\n", 2
        for (i = 3; i < count + 3; i++) printf "H 0000000A000081010000%08X\n", i
    }'
}

# All events enabled, and so many commands in turn, each with the S6F12 of its S6F11.
reports() {
    front
    awk -v count="$1" 'BEGIN {
        print "H 000000110000822500000000000201022501010100"
        for (i = 1; i <= count; i++) {
            print i % 2 == 1 ? "O local" : "O remote"
            printf "H 0000000D0000060C0000%08X210100\n", i
        }
    }'
}

# So many carriers: each is placed, proceeded with twice, canceled and removed.
carriers() {
    front
    awk -v count="$1" 'BEGIN {
        proceed = "0105B10400000000411250726F63656564576974684361727269657241054341523031A501010100"
        cancel = "0105B10400000000410D43616E63656C4361727269657241054341523031A501010100"
        for (i = 0; i < count; i++) {
            print "S placed 1 CAR01 3331111111111111111111111"
            printf "H 00000032000083110000%08X%s\n", 3 * i + 2, proceed
            printf "H 00000032000083110000%08X%s\n", 3 * i + 3, proceed
            printf "H 0000002D000083110000%08X%s\n", 3 * i + 4, cancel
            print "S removed 1"
        }
    }'
}

# Feeds the lines to a program, and leaves its time with $2 in $spent, and what it prints in $work/out.
spend() {
    program=$1
    feed
    spent=$(awk -v a="$user" -v b="$2" 'BEGIN { print a + b }')
}

# Measures a load of so many, named by its function, and its instructions on a shorter one.
measure() {
    local load=$1 count=$2 short=$3 a=0 b=0 runs=${RUNS:-20} peaks run
    "$load" "$count" > "$work/lines"
    for run in $(seq "$runs"); do
        spend "$before" "$a"
        a=$spent
        mv "$work/out" "$work/out-before"
        spend "$now" "$b"
        b=$spent
        if ! cmp -s "$work/out-before" "$work/out"; then
            echo "$load: the two programs print something else" >&2
            exit 1
        fi
    done
    program=$before
    feed_for_peak
    peaks=$peak
    program=$now
    feed_for_peak
    awk -v load="$load" -v count="$count" -v n="$runs" -v a="$a" -v b="$b" -v was="$peaks" -v is="$peak" 'BEGIN {
        printf "%s, %d: %.3f s before, %.3f s now, ratio %.2f; peak memory %d kB before, %d kB now\n", load, count, a / n, b / n, b / a, was, is
    }'
    "$load" "$short" > "$work/lines"
    a=$(instructions "$before")
    b=$(instructions "$now")
    if [ -n "$a" ] && [ -n "$b" ]; then
        awk -v short="$short" -v a="$a" -v b="$b" 'BEGIN {
            printf "    instructions of %d: %d before, %d now, ratio %.2f\n", short, a, b, b / a
        }'
    fi
}

measure messages 400000 20000
measure reports 100000 10000
measure carriers 20000 2000
