#!/usr/bin/env python3
"""Runs `kong_node dry` over the rows of tests/refused.txt, and compares what it prints and its exit status.

usage: tests/refused.py
Of each row that is told otherwise it prints the line of the table, what was wanted and what was had.
"""

import re
import subprocess
import sys
from pathlib import Path

ROOT = Path(__file__).resolve().parent.parent
PROGRAM = ROOT / "crates/kong_node/out/kong_node"
# how long a row may take
SECONDS = 300

SERVICE = '"services":[{"name":"s","host":"h","routes":[{"name":"r","paths":["/"]}]}]'
CONSUMER = '"consumers":[{"username":"c"}]'
# the lists before the one that a section names
BEFORE = {
    "services": [],
    "routes": [SERVICE.replace('"name":"r"', '"name":"q"')],
    "consumers": [],
    "keyauth_credentials": [CONSUMER],
    "basicauth_credentials": [CONSUMER],
    "acls": [CONSUMER],
    "plugins": [SERVICE, CONSUMER],
}

# the message of a refusal that has fields, by its code
MESSAGES = {2: "schema violation", 4: "foreign key violation", 5: "unique constraint violation"}
# the message of one that has none, by the word for it in the table
PLAIN = {"full": "Too many rows of this kind", "unread": "Cannot parse JSON body", "too long": "Bad line"}


def cases(text):
    """The line's number, the list, its rows and what is told of the last, for each line of the table."""
    name = None
    for number, line in enumerate(text.splitlines(), 1):
        if line.startswith("["):
            name = line[1 : line.index("]")]
        elif line and not line.startswith("#"):
            rows, _, told = line.rpartition("|")
            yield number, name, rows, told


def declaration(name, rows):
    """The declaration that ends with these rows in a list of this name."""
    rows = re.sub(r"<(.*?)\*(\d+)>", lambda many: many[1] * int(many[2]), rows)
    if name == "declaration":
        return f"{rows}\n"
    lists = ",".join([*BEFORE[name], f'"{name}":[{rows}]'])
    return f'{{"_format_version":"3.0",{lists}}}\n'


def wanted(told):
    """The exit status of the run and what it prints."""
    if told == "no memory":
        return 6, ""
    if told == "accepted":
        return 0, ""
    if told in PLAIN:
        return 3, f'line 1 refused: {{"message":"{PLAIN[told]}"}}\n'
    code, fields = (int(told[0]), told[2:]) if told[0].isdigit() else (2, told)
    message = MESSAGES[code]
    return 3, f'line 1 refused: {{"code":{code},"fields":{fields},"message":"{message}","name":"{message}"}}\n'


def had(name, rows):
    """The same as the program answers, or None where it doesn't in time."""
    given = declaration(name, rows).encode()
    try:
        ran = subprocess.run(
            [PROGRAM, "dry"], input=given, stdout=subprocess.PIPE, stderr=subprocess.DEVNULL, timeout=SECONDS
        )
    except subprocess.TimeoutExpired:
        return None
    return ran.returncode, ran.stdout.decode()


def told_of(answer):
    """A status and what is printed, on one line."""
    if answer is None:
        return f"no answer in {SECONDS} seconds"
    status, printed = answer
    return f"status {status}, {printed.rstrip()}" if printed else f"status {status}, nothing printed"


def main():
    # builds the program where it isn't there yet
    subprocess.run([ROOT / "bin/kong_node", "--version"], stdout=subprocess.DEVNULL, check=True)
    table = list(cases((ROOT / "tests/refused.txt").read_text()))
    wrong = 0
    for number, name, rows, told in table:
        answers = wanted(told), had(name, rows)
        if answers[0] != answers[1]:
            wrong += 1
            print(f"tests/refused.txt:{number}: {name} {rows}")
            print(f"  wanted {told_of(answers[0])}")
            print(f"  had    {told_of(answers[1])}")
    print(f"rows of tests/refused.txt: {len(table) - wrong} as told, {wrong} not")
    return 1 if wrong or not table else 0


if __name__ == "__main__":
    sys.exit(main())
