#!/usr/bin/env python3
"""Runs the program of the Admin API over the cases of tests/admin.txt, and compares its replies byte by byte, its exit status
and how its standard error begins.

usage: tests/admin.py
Of each case that is answered otherwise it prints the title, and the first reply that differs as it was wanted and as it was had.
"""

import re
import subprocess
import sys
from pathlib import Path

ROOT = Path(__file__).resolve().parent.parent
PROGRAM = ROOT / "crates/kg_admin_demo/out/kg_admin_demo"
TABLE = ROOT / "tests/admin.txt"
# how long a case may take
SECONDS = 300

# what follows a status in a reply's first line (RFC 9110, section 15; RFC 4918, section 11.5, for 507)
PHRASES = {
    200: "OK", 201: "Created", 204: "No Content", 400: "Bad Request", 404: "Not Found", 405: "Method Not Allowed",
    409: "Conflict", 500: "Internal Server Error", 507: "Insufficient Storage",
}  # fmt: skip
JSON = "content-type: application/json; charset=utf-8"


def numbered(text, number):
    """The text with this number for each `#`, and with the sum for `#+1` and `#-1`."""
    return re.sub(r"#([+-]\d+)?", lambda place: str(number + int(place[1] or 0)), text)


def written_out(text):
    """The text without the short forms of the table."""
    text = re.sub(r"<(\d+)\.\.(\d+) (.*?)>", several, text)
    text = re.sub(r"<(\w)\*(\d+)>", lambda many: many[1] * int(many[2]), text)
    return re.sub(r"ID\((\d+)\)", lambda id: f"00000000-0000-4000-8000-{int(id[1]):012x}", text)


def several(form):
    """`<1..3 TEXT>` written out: the text for each number, joined by commas."""
    return ",".join(numbered(form[3], number) for number in range(int(form[1]), int(form[2]) + 1))


class Exchange:
    """A request, and what it is answered."""

    def __init__(self, words="", is_given=False):
        first = re.fullmatch(r"(\S*) ?(\S*)(?: (HTTP/1\.0)(?= |$))?(?: (.*))?", words)
        self.method, self.target, version, body = first.groups()
        self.version = version or "HTTP/1.1"
        self.fields = []
        self.body = None if body is None else body.encode()
        # a request that is written as its bytes
        self.raw = None
        # a request that the case presupposes is answered by some status from 200 to 299
        self.is_given = is_given
        self.status = None
        self.headers = []
        self.reply_body = ""

    def take(self, word, rest):
        """Takes one more line, by its first word; false where none begins so."""
        if word == ">+":
            self.fields.append(rest)
        elif word == ">=":
            self.body = rest.encode()
        elif word == ">x":
            self.body = bytes.fromhex(rest)
        elif word == "<":
            status, _, self.reply_body = rest.partition(" ")
            self.status = int(status)
        elif word == "<+":
            self.headers.append(rest)
        return word in (">+", ">=", ">x", "<", "<+")

    def request(self):
        """The bytes of the request."""
        if self.raw is not None:
            return self.raw.encode()
        lines = [f"{self.method} {self.target} {self.version}", "Host: x", *self.fields]
        if self.body is not None:
            lines.append(f"Content-Length: {len(self.body)}")
        return message(lines) + (self.body or b"")

    def reply(self):
        """The bytes of the reply; None where some status from 200 to 299 will do."""
        if self.is_given:
            return None
        if self.status is None:
            return b""
        body = self.reply_body.encode()
        lines = [f"HTTP/1.1 {self.status} {PHRASES[self.status]}", JSON]
        if self.method == "HEAD" or self.status == 204:
            return message([*lines, *self.headers])
        return message([*lines, f"content-length: {len(body)}", *self.headers]) + body


class Case:
    """A title, the words that the program is given, exchanges, and how it ends."""

    def __init__(self, title):
        self.title = title
        self.words = ""
        self.exchanges = []
        self.status = 0
        self.reason = ""

    def given(self):
        return b"".join(exchange.request() for exchange in self.exchanges)


def message(lines):
    return ("\r\n".join(lines) + "\r\n\r\n").encode()


def numbers(text):
    """The numbers of `1..3`, and the rest of the line."""
    form = re.fullmatch(r"(\d+)\.\.(\d+)(?: (.*))?", text)
    return range(int(form[1]), int(form[2]) + 1), form[3]


def exchanges(lines):
    """The lines of an exchange written out, once for each number where its first line is `each`."""
    if lines[0].startswith("each "):
        for number in numbers(lines[0][len("each ") :])[0]:
            yield exchange_of([numbered(line, number) for line in lines[1:]])
    elif lines[0].startswith("given "):
        words = lines[0][len("given ") :]
        if not words[0].isdigit():
            yield Exchange(written_out(words), is_given=True)
            return
        all_numbers, words = numbers(words)
        for number in all_numbers:
            yield Exchange(written_out(numbered(words, number)), is_given=True)
    else:
        yield exchange_of(lines)


def exchange_of(lines):
    """The exchange of these lines."""
    word, _, rest = written_out(lines[0]).partition(" ")
    exchange = Exchange(rest if word == ">" else "")
    if word == "raw":
        exchange.raw = rest.replace("\\r", "\r").replace("\\n", "\n")
    for line in lines[1:]:
        word, _, rest = written_out(line).partition(" ")
        if not exchange.take(word, rest):
            raise ValueError(line)
    return exchange


def begins_exchange(word, groups):
    """Does a line with this first word begin an exchange? A request behind `each` stands in the one that was begun."""
    follows_each = groups and len(groups[-1]) == 1 and groups[-1][0].startswith("each ")
    return word in ("given", "each", "raw") or (word == ">" and not follows_each)


def case_of(lines):
    """The case of a block: its title, its options and its exchanges."""
    case = Case(lines[0])
    groups = []
    for line in (line.removesuffix("$") for line in lines[1:]):
        word, _, rest = line.partition(" ")
        if word == "program":
            case.words = rest
        elif word == "ends":
            status, _, case.reason = rest.partition(" ")
            case.status = int(status)
        elif begins_exchange(word, groups):
            groups.append([line])
        else:
            groups[-1].append(line)
    for group in groups:
        case.exchanges += exchanges(group)
    return case


def cases(text):
    """The cases of the table: blocks of lines, with the first as the title."""
    for block in text.split("\n\n"):
        lines = [line for line in block.splitlines() if not line.startswith("#")]
        if lines:
            yield case_of(lines)


def first_difference(case, printed):
    """The first reply that differs, as it was wanted and as it was had; None where none does."""
    for exchange in case.exchanges:
        wanted = exchange.reply()
        if wanted is None:
            head, _, rest = printed.partition(b"\r\n\r\n")
            length = re.search(rb"^content-length: (\d+)$", head.replace(b"\r", b""), re.M)
            if not head.startswith(b"HTTP/1.1 2") or length is None:
                return f"a status from 200 to 299 for {exchange.method} {exchange.target}", printed[:2000]
            printed = rest[int(length[1]) :]
        elif printed.startswith(wanted):
            printed = printed[len(wanted) :]
        else:
            return wanted[:2000], printed[: len(wanted) + 200][:2000]
    return (b"nothing more", printed[:2000]) if printed else None


def differences(case, printed, told, status):
    """What of an output, a standard error and an exit status isn't as the case has it."""
    found = [] if status == case.status else [(f"exit status {case.status}", f"exit status {status}")]
    if not told.startswith(case.reason) or (told and not case.reason):
        found.append((case.reason or "nothing on standard error", told))
    difference = first_difference(case, printed)
    return [difference, *found] if difference else found


def had(case):
    """What the program prints, its standard error and its exit status."""
    command = ["bash", "-c", f"exec {PROGRAM} {case.words}"]
    try:
        ran = subprocess.run(command, input=case.given(), stdout=subprocess.PIPE, stderr=subprocess.PIPE, timeout=SECONDS)
    except subprocess.TimeoutExpired:
        return b"", "", f"none in {SECONDS} seconds"
    return ran.stdout, ran.stderr.decode(), ran.returncode


def main():
    # builds the program where it isn't there yet
    subprocess.run([ROOT / "bin/admin_demo", "--version"], stdout=subprocess.DEVNULL, check=True)
    table = list(cases(TABLE.read_text()))
    wrong = 0
    for case in table:
        found = differences(case, *had(case))
        if found:
            wrong += 1
            print(f"tests/admin.txt: {case.title}")
        for wanted, printed in found:
            print(f"  wanted {wanted}")
            print(f"  had    {printed}")
    print(f"cases of tests/admin.txt: {len(table) - wrong} as told, {wrong} not")
    return 1 if wrong or not table else 0


if __name__ == "__main__":
    sys.exit(main())
