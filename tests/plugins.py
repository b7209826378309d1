#!/usr/bin/env python3
"""Runs `kong_node dry` over the cases of tests/plugins.txt, and compares their replies byte by byte.

usage: tests/plugins.py
Of each case that is answered otherwise it prints the title, what was wanted and what was had.
"""

import json
import re
import subprocess
import sys
from pathlib import Path

ROOT = Path(__file__).resolve().parent.parent
PROGRAM = ROOT / "crates/kong_node/out/kong_node"
# how long a case may take
SECONDS = 300

ROWS = {
    "_format_version": "3.0",
    "services": [
        {"name": "s", "host": "h", "routes": [{"name": "r", "paths": ["/a"], "strip_path": False}]},
        {"name": "t", "host": "h", "routes": [{"name": "q", "paths": ["/q"], "strip_path": False}]},
    ],
    "consumers": [{"username": "c"}],
}
# what follows a status in a reply's first line (RFC 9110, section 15; RFC 2324 for 418, RFC 6585 for 429)
PHRASES = {
    200: "OK", 204: "No Content", 304: "Not Modified", 400: "Bad Request", 401: "Unauthorized", 403: "Forbidden",
    404: "Not Found", 405: "Method Not Allowed", 410: "Gone", 413: "Payload Too Large", 418: "I'm a teapot",
    429: "Too Many Requests", 500: "Internal Server Error", 502: "Bad Gateway", 503: "Service Unavailable", 599: "",
}  # fmt: skip


class Exchange:
    """A request, and what it is answered."""

    def __init__(self):
        self.request = []
        self.sent = None
        self.reply = []
        self.body = ""
        self.upstream = []

    def take(self, word, rest):
        """Takes one line, by its first word; false where none begins so."""
        if word == ">":
            self.request.append(rest)
        elif word == ">=":
            self.sent = rest
        elif word == ">*":
            self.sent = "b" * int(rest)
        elif word == "<":
            self.reply.append(rest)
        elif word == "<=":
            self.body = rest
        elif word == "up":
            self.upstream.append(rest)
        return word in (">", ">=", ">*", "<", "<=", "<-", "up")

    def given(self):
        """The request as bytes are read."""
        lines = [f"{self.request[0]} HTTP/1.1", "Host: x", *self.request[1:]]
        if self.sent is not None:
            lines.append(f"Content-Length: {len(self.sent.encode())}")
        return message(lines, self.sent or "")

    def upstream_message(self):
        """The request as it goes upstream."""
        lines = [
            f"{self.upstream[0]} HTTP/1.1",
            "host: h",
            *self.upstream[1:],
            "x-forwarded-for: 127.0.0.1",
            "x-forwarded-proto: http",
            "x-forwarded-host: x",
            "x-real-ip: 127.0.0.1",
        ]
        if self.sent is not None:
            lines.append(f"content-length: {len(self.sent.encode())}")
        return message([*lines, "connection: close"], self.sent or "")

    def wanted(self):
        """The reply as bytes are written."""
        status = int(self.reply[0])
        body = self.upstream_message() if self.upstream else self.body
        lines = [f"HTTP/1.1 {status} {PHRASES[status]}", *self.reply[1:]]
        if self.request[0].startswith("HEAD ") or status in (204, 304):
            return message(lines, "")
        return message([*lines, f"content-length: {len(body.encode())}"], body)


class Case:
    """A title, rows, and requests with what they are answered."""

    def __init__(self, title):
        self.title = title
        self.consumers = [*ROWS["consumers"]]
        self.plugins = []
        self.exchanges = []

    def take(self, line):
        """Takes one line of the case behind its title."""
        word, _, rest = line.partition(" ")
        if word == "consumer":
            self.consumers.append(json.loads(rest))
            return
        if word == "plugin":
            self.plugins.append(json.loads(rest))
            return
        # a line of a request behind a reply begins the next request
        if word == ">" and (not self.exchanges or self.exchanges[-1].reply):
            self.exchanges.append(Exchange())
        if not self.exchanges or not self.exchanges[-1].take(word, rest):
            raise ValueError(f"{self.title}: {line}")

    def given(self):
        """What the program reads: the declaration and the requests."""
        rows = {**ROWS, "consumers": self.consumers, "plugins": self.plugins}
        return json.dumps(rows) + "\n" + "".join(exchange.given() for exchange in self.exchanges)

    def wanted(self):
        """The replies as bytes are written."""
        return "".join(exchange.wanted() for exchange in self.exchanges)


def message(lines, body):
    return "\r\n".join(lines) + "\r\n\r\n" + body


def cases(text):
    """The cases of the table: blocks of lines, with the first as the title."""
    text = re.sub(r"<(\w)\*(\d+)>", lambda many: many[1] * int(many[2]), text)
    text = re.sub(r"ID\((\d+)\)", lambda id: f"00000000-0000-4000-8000-{int(id[1]):012x}", text)
    for block in text.split("\n\n"):
        lines = [line for line in block.splitlines() if not line.startswith("#")]
        if lines:
            case = Case(lines[0])
            for line in lines[1:]:
                case.take(line.removesuffix("$"))
            yield case


def had(given):
    """What the program prints and its exit status."""
    try:
        ran = subprocess.run(
            [PROGRAM, "dry"], input=given.encode(), stdout=subprocess.PIPE, stderr=subprocess.DEVNULL, timeout=SECONDS
        )
    except subprocess.TimeoutExpired:
        return f"no answer in {SECONDS} seconds", None
    return ran.stdout.decode(), ran.returncode


def main():
    # builds the program where it isn't there yet
    subprocess.run([ROOT / "bin/kong_node", "--version"], stdout=subprocess.DEVNULL, check=True)
    table = list(cases((ROOT / "tests/plugins.txt").read_text()))
    wrong = 0
    for case in table:
        answers = (case.wanted(), 0), had(case.given())
        if answers[0] != answers[1]:
            wrong += 1
            print(f"tests/plugins.txt: {case.title}")
            print(f"  wanted {answers[0]}")
            print(f"  had    {answers[1]}")
    print(f"cases of tests/plugins.txt: {len(table) - wrong} as told, {wrong} not")
    return 1 if wrong or not table else 0


if __name__ == "__main__":
    sys.exit(main())
