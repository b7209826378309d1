#!/usr/bin/env bash
# Measures what the windows of rate-limiting cost in time and memory, by the test program limit_cases: hits that come one
# after another, each reserved, counted and judged.
# usage: bench/limits.sh [HITS]
# For each of these it prints the processor time of a hit, and the greatest resident memory less that of a run without hits:
# - HITS hits (1,000,000, a multiple of ten) of a tenth as many identities, all on one day;
# - HITS hits, each of an identity of its own, over ten days: on each day a tenth of them.
# In both as many windows are live at a time. Status 1: the second takes more than twice the memory of the first, so what is
# over isn't given back.
# The program is built first where it isn't there. It needs python3.
set -eu
root="$(cd "$(dirname "${BASH_SOURCE[0]}")/.." && pwd)"
(cd "$root/crates/limit_cases" && rt run limit_cases) > /dev/null < /dev/null
exec python3 - "$root/crates/limit_cases/out/limit_cases" "${1:-1000000}" <<'PYTHON'
import os
import subprocess
import sys
import tempfile

PROGRAM, HITS = sys.argv[1], int(sys.argv[2])
DAY = 86_400_000
PER_DAY = HITS // 10
# what is measured: its name, how many hits, of how many identities, how many milliseconds apart
RUNS = [
    (f"{HITS} hits of {PER_DAY} identities on one day", HITS, PER_DAY, 0),
    (f"{HITS} hits of {HITS} identities over ten days", HITS, HITS, DAY // PER_DAY),
]


def once(hits, identities, apart):
    """The processor time of a run in microseconds, its greatest resident memory in KiB, and how many are let through."""
    with tempfile.TemporaryFile() as given, tempfile.TemporaryFile() as told:
        given.write(f"limit many | {hits} | {identities} | {apart} | day 1000000000\n".encode())
        given.seek(0)
        run = subprocess.Popen([PROGRAM], stdin=given, stdout=told)
        _, status, used = os.wait4(run.pid, 0)
        told.seek(0)
        through = told.read().decode().strip()
    if os.waitstatus_to_exitcode(status) != 0 or through != str(hits):
        sys.exit(f"{PROGRAM} let {through} of {hits} hits through, and ended with {os.waitstatus_to_exitcode(status)}")
    return round((used.ru_utime + used.ru_stime) * 1_000_000), used.ru_maxrss


nothing = once(0, 1, 0)
took = []
for name, hits, identities, apart in RUNS:
    time, memory = once(hits, identities, apart)
    took.append(memory - nothing[1])
    print(f"{name}: {(time - nothing[0]) / hits:.2f} microseconds a hit, {took[-1]} KiB")
sys.exit(took[1] > 2 * took[0])
PYTHON
