#!/usr/bin/env bash
# bench/notes.sh [PROGRAM]
#
# Changes of a durable spool on a real file, beside what else one might use there, in one run:
#
# - `notes FILE`: so many pushes of notes with texts of 100 bytes, and so many takes, by the program;
# - two syncs a change: a plain program that writes as many bytes at a place, syncs, writes one byte, and syncs, as a spool has to at least;
# - SQLite (python3's module), with WAL and synchronous FULL: one insert or one delete a transaction.
#
# Each is done $ROUNDS times in turn, on the same file system: that of $NOTES_FOLDER, by default that of the temporary folder; a file system in
# memory tells nothing. It prints the changes a second of each, pushes and takes together, the middle of the rounds, and the least and the greatest. Wanted: at
# least 0.9 of the plain program's, and as many as SQLite's. Then it prints how long `notes` takes for one `take` on a spool of 65,536 notes with
# texts of 100 bytes, most of which is opening it.
#
# Times are by the clock: a busy machine and its disk change them much, and the three alike. This is a measurement. It is no test, and no
# part of the merge gate. Build the program first:
#
#     cd crates/gem300_tool && rt run -- feed ../../examples/first.toml < ../../examples/lot.lines
set -euo pipefail
cd "$(dirname "$0")/.."

program=$(realpath "${1:-crates/gem300_tool/out/gem300_tool}")
if [ ! -x "$program" ]; then
    echo "$program is missing: build it first, as the head of this script says" >&2
    exit 2
fi
work=$(mktemp -d -p "${NOTES_FOLDER:-${TMPDIR:-/tmp}}")
trap 'rm -rf "$work"' EXIT
stat --file-system --format 'file system %T' "$work"
PROGRAM=$program WORK=$work COUNT=${COUNT:-1000} ROUNDS=${ROUNDS:-5} OPENINGS=${OPENINGS:-5} python3 - <<'PY'
import os
import sqlite3
import statistics
import subprocess
import time

program, work = os.environ["PROGRAM"], os.environ["WORK"]
count, rounds, openings = (int(os.environ[key]) for key in ("COUNT", "ROUNDS", "OPENINGS"))
TEXT = bytes(range(100))
SIZES = {1000: 1001 * 87020 + 1, 65536: 65537 * 87020 + 1}


def fresh(name):
    for end in ("", "-wal", "-shm"):
        if os.path.exists(os.path.join(work, name + end)):
            os.remove(os.path.join(work, name + end))
    return os.path.join(work, name)


def notes(path, text):
    start = time.perf_counter()
    run = subprocess.run([program, "notes", path], input=text, capture_output=True, check=False)
    took = time.perf_counter() - start
    if run.returncode != 0:
        raise SystemExit(f"the program ended with {run.returncode}: {run.stderr.decode().strip()}")
    return took, run.stdout


def by_notes():
    path = fresh("spool")
    notes(path, f"format 65536 {SIZES[65536]}\n".encode())
    lines = [f"push keep {n} event 211 {TEXT.hex()}\n" for n in range(1, count + 1)] + ["take\n"] * count
    took, printed = notes(path, "".join(lines).encode())
    if printed.count(b"\n") != count:
        raise SystemExit("not every note came back")
    return 2 * count / took


def by_two_syncs():
    disk = os.open(fresh("plain"), os.O_RDWR | os.O_CREAT, 0o600)
    at = 14
    start = time.perf_counter()
    for size in [20 + len(TEXT)] * count + [2] * count:
        os.pwrite(disk, bytes(size), at + 1)
        os.fdatasync(disk)
        os.pwrite(disk, b"\1", at)
        os.fdatasync(disk)
        at += size
    took = time.perf_counter() - start
    os.close(disk)
    return 2 * count / took


def by_sqlite():
    base = sqlite3.connect(fresh("base"), isolation_level=None)
    base.execute("pragma journal_mode = wal")
    base.execute("pragma synchronous = full")
    base.execute("create table note (number integer primary key, kind integer, id integer, text blob)")
    start = time.perf_counter()
    for n in range(1, count + 1):
        base.execute("insert into note values (?, 0, 211, ?)", (n, TEXT))
    for n in range(1, count + 1):
        base.execute("delete from note where number = ?", (n,))
    took = time.perf_counter() - start
    base.close()
    return 2 * count / took


ways = {"notes FILE": by_notes, "two syncs a change": by_two_syncs, f"SQLite {sqlite3.sqlite_version}": by_sqlite}
rates = {name: [] for name in ways}
for _ in range(rounds):
    for name, way in ways.items():
        rates[name].append(way())
middles = {name: statistics.median(all_of) for name, all_of in rates.items()}
for name, all_of in rates.items():
    print(f"{name}: {middles[name]:.0f} changes a second ({min(all_of):.0f} to {max(all_of):.0f}, {rounds} rounds of {2 * count})")
own, plain, sql = middles.values()
print(f"beside two syncs a change {own / plain:.2f} (at least 0.9 is wanted), beside SQLite {own / sql:.2f} (at least 1)")

path = fresh("spool")
head = bytes([0]) + (65536).to_bytes(4, "big") + SIZES[65536].to_bytes(8, "big")
record = b"".join(bytes([1, 1, 0]) + n.to_bytes(8, "big") + bytes([0]) + (211).to_bytes(4, "big") + len(TEXT).to_bytes(4, "big") + TEXT for n in range(1, 65537))
with open(path, "wb") as file:
    file.write(head + record + bytes([0]))
times = []
for n in range(1, openings + 1):
    took, printed = notes(path, b"take\n")
    if printed != f"{n} event 211 {TEXT.hex().upper()}\n".encode():
        raise SystemExit("another note came back")
    times.append(took)
print(f"a spool of 65,536 notes is opened in {statistics.median(times):.2f} s ({min(times):.2f} to {max(times):.2f}, {openings} times)")
PY
