#!/usr/bin/env bash
# Measures what threads do at one store, by the test program store_cases: commits, looks and loads a second with 1, 2 and 4
# threads that have a seat each, and what one look and one load cost.
# usage: bench/store.sh [COMMITS [LOOKS [LOADS]]]
# For each of these it prints how often it is done a second by the clock, the time of a run of no turns taken off:
# - COMMITS commits (20,000) of services by all threads together, each with the reading of its body;
# - LOOKS looks (20,000,000) by all threads together;
# - LOADS loads (2,000,000) of one consumer by all threads together.
# Then it counts by valgrind, where that is there, the instructions of a look in one thread, and of a load beside one consumer
# and beside 1,000.
# Status 1: a look takes 200 instructions or more, or a load beside 1,000 consumers twice as many as beside one.
# The program is built first where it isn't there. It needs python3.
set -eu
root="$(cd "$(dirname "${BASH_SOURCE[0]}")/.." && pwd)"
(cd "$root/crates/store_cases" && rt run store_cases) > /dev/null < /dev/null
exec python3 - "$root/crates/store_cases/out/store_cases" "${1:-20000}" "${2:-20000000}" "${3:-2000000}" <<'PYTHON'
import re
import shutil
import subprocess
import sys
import time

PROGRAM = sys.argv[1]
COMMITS, LOOKS, LOADS = map(int, sys.argv[2:5])
THREADS = (1, 2, 4)
MOST_INSTRUCTIONS = 200
# what is measured: its name, how often all threads together do it, its word in a line and the word behind the turns
KINDS = [("commits", COMMITS, "services", ""), ("looks", LOOKS, "looks", ""), ("loads", LOADS, "loads", " | 1")]
COUNTED = re.compile(rb"Collected : (\d+)")


def run(words, kind, rest, threads, turns):
    """What a run prints beside its answer. Each thread has so many turns."""
    line = f"store {kind} | {threads} | {turns}{rest}\n".encode()
    done = subprocess.run([*words, PROGRAM], input=line, capture_output=True)
    if done.returncode != 0 or not done.stdout.endswith(b", 0 wrong\n"):
        sys.exit(f"{PROGRAM} printed {done.stdout} for {line}, and ended with {done.returncode}")
    return done.stderr


def seconds(kind, rest, threads, turns):
    """The least time of three runs by the clock."""
    times = []
    for _ in range(3):
        start = time.perf_counter()
        run([], kind, rest, threads, turns)
        times.append(time.perf_counter() - start)
    return min(times)


def instructions(kind, rest):
    """The instructions of one turn in one thread."""
    words = ["valgrind", "--tool=callgrind", "--callgrind-out-file=/dev/null"]
    few, many = (int(COUNTED.search(run(words, kind, rest, 1, turns))[1]) for turns in (1000, 3000))
    return (many - few) / 2000


for name, count, kind, rest in KINDS:
    for threads in THREADS:
        took = seconds(kind, rest, threads, count // threads) - seconds(kind, rest, threads, 0)
        print(f"{name}, {threads} threads: {count / took:,.0f} a second")
if not shutil.which("valgrind"):
    sys.exit(0)
look, load, load_beside_many = (instructions(*one) for one in (("looks", ""), ("loads", " | 1"), ("loads", " | 1000")))
print(f"a look: {look:,.0f} instructions")
print(f"a load beside 1 consumer: {load:,.0f} instructions, beside 1,000: {load_beside_many:,.0f}")
sys.exit(look >= MOST_INSTRUCTIONS or load_beside_many >= 2 * load)
PYTHON
