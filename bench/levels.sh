#!/usr/bin/env bash
# Measures what the calls of the cache levels cost with few entries and with many, by the test program level_cases:
# `get`, `put` and `sync` of a worker's level, `lookup` that hits and `lookup` with `settle` of the shared table.
# usage: bench/levels.sh [ENTRIES]
# For each it prints the processor time of a call over 1,000 and over ENTRIES entries (1,000,000) and, where valgrind is
# installed, its instructions over 1,000 and over a tenth of ENTRIES: those of a run without calls, and of the making of
# its key, taken off. Then it prints the memory of an entry, and that of a level without entries which has room for ENTRIES.
# Status 1: with the more entries a call takes more than 1.5 times the instructions, a hit of the worker's level takes more
# than 1,500, or room takes memory before it is used.
# The program is built first where it isn't there. It needs python3.
set -eu
root="$(cd "$(dirname "${BASH_SOURCE[0]}")/.." && pwd)"
(cd "$root/crates/level_cases" && rt run level_cases) > /dev/null < /dev/null
exec python3 - "$root/crates/level_cases/out/level_cases" "${1:-1000000}" <<'PYTHON'
import os
import re
import shutil
import subprocess
import sys
import tempfile

PROGRAM, MANY = sys.argv[1], int(sys.argv[2])
FEW, CALLS = 1_000, 200_000
VALGRIND = shutil.which("valgrind")


def run(call, room, entries, calls, before=()):
    """A run's time in microseconds, its greatest resident memory in KiB, and what it told on standard error."""
    with tempfile.TemporaryFile() as given, tempfile.TemporaryFile() as told, tempfile.TemporaryFile() as errors:
        given.write(f"level many | {call} | {room} | {entries} | {calls}\n".encode())
        given.seek(0)
        process = subprocess.Popen([*before, PROGRAM], stdin=given, stdout=told, stderr=errors)
        _, status, used = os.wait4(process.pid, 0)
        told.seek(0)
        errors.seek(0)
        answer, log = told.read().decode().strip(), errors.read().decode()
    if os.waitstatus_to_exitcode(status) != 0 or not answer.isdigit():
        sys.exit(f"{PROGRAM}: {answer}, status {os.waitstatus_to_exitcode(status)}")
    return (used.ru_utime + used.ru_stime) * 1_000_000, used.ru_maxrss, log


def time(call, entries):
    """Nanoseconds a call, without those of its key."""
    def calls(kind):
        return run(kind, entries, entries, CALLS)[0] - run(kind, entries, entries, 0)[0]
    return (calls(call) - calls("keys")) * 1000 / CALLS


def instructions(call, entries):
    """Instructions a call, without those of its key."""
    def counted(kind, calls):
        log = run(kind, entries, entries, calls, [VALGRIND, "--tool=callgrind", "--callgrind-out-file=/dev/null"])[2]
        return int(re.search(r"Collected : (\d+)", log)[1])

    def calls(kind):
        return counted(kind, 10_000) - counted(kind, 0)
    return (calls(call) - calls("keys")) / 10_000


bad = False
for call, name in [("get", "get, a hit"), ("put", "put"), ("sync", "sync of one key"), ("lookup", "lookup, a hit"), ("settle", "lookup and settle")]:
    line = f"{name}: {time(call, FEW):.0f} ns with {FEW} entries, {time(call, MANY):.0f} with {MANY}"
    if VALGRIND:
        few, many = instructions(call, FEW), instructions(call, MANY // 10)
        line += f"; {few:.0f} and {many:.0f} instructions with {FEW} and {MANY // 10}"
        bad = bad or many > 1.5 * few or (call == "get" and many > 1_500)
    print(line)
nothing = run("get", FEW, 1, 0)[1]
room = run("get", MANY, 1, 0)[1] - nothing
held = run("get", MANY, MANY, 0)[1] - nothing
print(f"{held * 1024 / MANY:.0f} bytes an entry; room for {MANY} without entries: {room} KiB")
sys.exit(bad or room > 1_024)
PYTHON
