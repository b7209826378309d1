#!/usr/bin/env bash
# Measures what rows cost at 1,000, 10,000 and 100,000 of a kind: whole declarations, read by `kong_node dry`, and single
# changes, made by the test program row_cases at the rows of such a declaration.
# usage: bench/rows.sh [ROWS ..]
# For each number N it prints
# - of N consumers with a key each, and of N services with a plugin each: the bytes of the line, the least processor time
#   of seven runs and the greatest resident memory of one;
# - of each change: the processor time of one, as the least of seven runs with N of them without the least of the rows
#   alone. A change that looks at all rows of a kind takes a hundred times as long at a hundred times the rows.
# Both programs are built first where they aren't there. It needs python3.
set -eu
root="$(cd "$(dirname "${BASH_SOURCE[0]}")/.." && pwd)"
"$root/bin/kong_node" --version > /dev/null
(cd "$root/crates/row_cases" && rt run row_cases) > /dev/null < /dev/null
[ $# -gt 0 ] || set -- 1000 10000 100000
exec python3 - "$root/crates" "$@" <<'PYTHON'
import json
import os
import subprocess
import sys
import tempfile

CRATES, NUMBERS = sys.argv[1], [int(word) for word in sys.argv[2:]]
DRY = [f"{CRATES}/kong_node/out/kong_node", "dry"]
CASES = [f"{CRATES}/row_cases/out/row_cases"]
RUNS = 7


def consumers(rows):
    return {"consumers": [{"username": f"c{i}", "keyauth_credentials": [{"key": f"k{i}"}]} for i in range(rows)]}


def services(rows):
    return {
        "services": [
            {"name": f"s{i}", "host": "h", "plugins": [{"name": "request-termination"}]} for i in range(rows)
        ]
    }


def declaration(lists):
    return json.dumps({"_format_version": "3.0", **lists}, separators=(",", ":"))


# what is changed, at which rows, and the line of the i-th change
CHANGES = [
    ("insert a consumer", consumers, lambda i: f'POST consumers {{"username":"n{i}"}}'),
    ("insert a key", consumers, lambda i: f'POST consumers/c{i}/key-auth {{"key":"n{i}"}}'),
    ("update a consumer by PATCH", consumers, lambda i: f'PATCH consumers/c{i} {{"custom_id":"v{i}"}}'),
    ("update a service by PUT", services, lambda i: f'PUT services/s{i} {{"name":"s{i}","host":"i"}}'),
    ("delete a key", consumers, lambda i: f"DELETE key-auth/k{i}"),
    ("delete a consumer with its key", consumers, lambda i: f"DELETE consumers/c{i}"),
    ("delete a service with its plugin", services, lambda i: f"DELETE services/s{i}"),
    ("insert a plugin", services, lambda i: f'POST plugins {{"name":"cors","service":"s{i}"}}'),
    ("refuse a plugin whose name its service has", services,
     lambda i: f'POST plugins {{"name":"request-termination","service":"s{i}"}}'),
]


def once(command, text):
    """The processor time of a run in microseconds and its greatest resident memory in KiB."""
    with tempfile.TemporaryFile() as given:
        given.write(text.encode())
        given.seek(0)
        run = subprocess.Popen(command, stdin=given, stdout=subprocess.DEVNULL, stderr=subprocess.DEVNULL)
        _, status, used = os.wait4(run.pid, 0)
    if os.waitstatus_to_exitcode(status) != 0:
        sys.exit(f"{command[0]} ended with {os.waitstatus_to_exitcode(status)}")
    return round((used.ru_utime + used.ru_stime) * 1_000_000), used.ru_maxrss


def least(command, text):
    # other work only adds to a run's time
    runs = [once(command, text) for _ in range(RUNS)]
    return min(time for time, _ in runs), max(memory for _, memory in runs)


def whole(rows):
    for name, lists in ("consumers with a key", consumers), ("services with a plugin", services):
        line = declaration(lists(rows)) + "\n"
        time, memory = least(DRY, line)
        print(f"{rows} {name} each, {len(line)} bytes: {time} microseconds, {memory} KiB", flush=True)


def single(rows):
    alone = {}
    for name, lists, line in CHANGES:
        text = f"limit {2 * rows}\ndeclare {declaration(lists(rows))}\n"
        if lists not in alone:
            alone[lists] = least(CASES, text)[0]
        time = least(CASES, text + "".join(f"{line(i)}\n" for i in range(rows)))[0]
        print(f"{rows} rows of each kind, {name}: {(time - alone[lists]) / rows:.1f} microseconds", flush=True)


for rows in NUMBERS:
    whole(rows)
    single(rows)
PYTHON
