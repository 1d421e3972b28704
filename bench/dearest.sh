#!/usr/bin/env bash
# Times the dearest messages that a host can send in a text of 262,144 bytes, the longest that is taken, of each stream of which it
# sends any: while one is done, nobody else has a turn. Of each message the processor time is told, which is that of a run with ten of
# them less that of the run without, by ten, and the answer's bytes.
#
# Wanted: no more than 0.05 s for each. This is a measurement. It is no test, and no part of the merge
# gate. Build the program first:
#
#     cd crates/gem300_tool && rt run -- feed ../../examples/first.toml < ../../examples/communication.lines
set -euo pipefail
cd "$(dirname "$0")/.."
source bench/feeding.sh

# Writes the lines of a row: what stands in front, and the message so often behind it. Without a row it prints the names of all.
lines() {
    python3 - "$@" << 'PYTHON'
import sys

def head(code, count):
    if count < 1 << 8:
        return bytes([4 * code + 1, count])
    if count < 1 << 16:
        return bytes([4 * code + 2]) + count.to_bytes(2, "big")
    return bytes([4 * code + 3]) + count.to_bytes(3, "big")

def L(*items):
    return head(0, len(items)) + b"".join(items)

def A(text):
    return head(16, len(text)) + text.encode()

def U1(*numbers):
    return head(41, len(numbers)) + bytes(numbers)

def U4(number):
    return head(44, 4) + number.to_bytes(4, "big")

def BOOL(truth):
    return head(9, 1) + bytes([truth])

# A name of three characters, each of its own.
def name(i):
    return "".join(chr(33 + i // 94 ** place % 94) for place in range(3))

MOST = 262144

# The text of as many items as fit: what builds it of a list of these, and the n-th of them.
def longest(build, item):
    size = len(item(0))
    count = (MOST - len(build([])) - 3) // size
    while len(build([item(n) for n in range(count)])) > MOST:
        count -= 1
    return build([item(n) for n in range(count)])

def job(n):
    return L(U4(0), A("PJ%02d" % n), head(8, 1) + b"\x0d", L(L(A("CAR09"), L())), L(U1(1), A("R1"), L()), BOOL(1), L())

def control(names):
    return L(A(""), A("ControlJob"), L(L(A("ObjID"), A("CJ1")), L(A("ProcessingCtrlSpec"), L(*names))))

JOBS = [(16, 11, job(n)) for n in range(1, 65)]
REPORTS = [(2, 33, L(U1(0), L(*[L(U4(n), L(U1(1))) for n in range(1, 257)])))]

ROWS = {
    "S1F3, ids past 1,024": ([], 1, 3, lambda: longest(lambda xs: L(*xs), lambda n: U1(1))),
    "S1F13, a body that is none": ([], 1, 13, lambda: longest(lambda xs: L(*xs), lambda n: U1(1))),
    "S2F15, constants": ([], 2, 15, lambda: longest(lambda xs: L(*xs), lambda n: L(U1(201), U1(9)))),
    "S2F33, a report deleted again and again, of 256": (REPORTS, 2, 33, lambda: longest(lambda xs: L(U1(0), L(*xs)), lambda n: L(U1(1), L()))),
    "S2F35, a link taken away again and again": ([], 2, 35, lambda: longest(lambda xs: L(U1(0), L(*xs)), lambda n: L(U1(210), L()))),
    "S2F41, parameters": ([], 2, 41, lambda: longest(lambda xs: L(A("START"), L(*xs)), lambda n: L(A(""), A("")))),
    "S2F43, streams without functions": ([], 2, 43, lambda: longest(lambda xs: L(*xs), lambda n: L(U1(1), L()))),
    "S2F43, functions of one stream": ([], 2, 43, lambda: longest(lambda xs: L(L(U1(6), L(*xs))), lambda n: U1(11))),
    "S3F17, attributes": ([], 3, 17, lambda: longest(lambda xs: L(U1(0), A("Bind"), A("CAR01"), U1(1), L(*xs)), lambda n: L(A(""), U1(1)))),
    "S5F5, an integer of many elements": ([], 5, 5, lambda: U1(*[1] * (MOST - 4))),
    "S6F23, a body that is none": ([], 6, 23, lambda: longest(lambda xs: L(*xs), lambda n: U1(1))),
    "S14F9, names that are all apart": (JOBS, 14, 9, lambda: longest(control, lambda n: A(name(n)))),
    "S14F9, one name again and again": (JOBS, 14, 9, lambda: longest(control, lambda n: A("PJ01"))),
    "S14F9, attributes": (JOBS, 14, 9, lambda: longest(lambda xs: L(A(""), A("ControlJob"), L(*xs)), lambda n: L(A("ObjID"), A("C")))),
    "S16F11, carriers": ([], 16, 11, lambda: longest(lambda xs: L(U4(0), A("PJ"), head(8, 1) + b"\x0d", L(*xs), L(U1(1), A("R1"), L()), BOOL(1), L()), lambda n: L(A(name(n)), L()))),
    "S16F17, 64 jobs again and again, of which the last isn't there": (JOBS, 16, 17, lambda: longest(lambda xs: L(*xs, A("x")), lambda n: A("PJ%02d" % (n % 64 + 1)))),
}

def frame(stream, function, wants, system, text):
    body = bytes([0, 0, stream + (128 if wants else 0), function, 0, 0]) + system.to_bytes(4, "big") + text
    return "H " + (len(body).to_bytes(4, "big") + body).hex().upper()

if len(sys.argv) == 1:
    print("\n".join(ROWS))
    sys.exit()
before, stream, function, text = ROWS[sys.argv[1]]
print("L+\nH 0000000AFFFF0000000100000001")
print(frame(1, 13, True, 2, L()))
for place, (s, f, body) in enumerate(before):
    print(frame(s, f, False, 100 + place, body))
text = text() if int(sys.argv[2]) else b""
for place in range(int(sys.argv[2])):
    print(frame(stream, function, True, 1000 + place, text))
PYTHON
}

# The processor time of the lines in $work/lines, of five runs the least, is left in $least.
least_of_five() {
    least=
    for _ in 1 2 3 4 5; do
        feed
        least=$(awk -v a="${least:-1000000}" -v b="$seconds" 'BEGIN { print (b < a) ? b : a }')
    done
}

worst=0
while IFS= read -r row; do
    lines "$row" 0 > "$work/lines"
    least_of_five
    without=$least
    lines "$row" 10 > "$work/lines"
    bytes=$(tail -n 1 "$work/lines" | awk '{ print (length($2) - 28) / 2 }')
    least_of_five
    answer=$(tail -n 1 "$work/out" | awk '{ print (length($2) - 28) / 2 }')
    each=$(awk -v a="$without" -v b="$least" 'BEGIN { printf "%.4f", (b - a) / 10 }')
    worst=$(awk -v a="$worst" -v b="$each" 'BEGIN { print (b > a) ? b : a }')
    echo "$row: $bytes bytes, $each s; the answer has $answer bytes"
done < <(lines)
echo "the dearest takes $worst s (at most 0.05 is wanted)"
