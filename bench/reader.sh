#!/usr/bin/env bash
# Measures what a head of 65,536 bytes in lines of three bytes costs `kong_node dry`, read a line at a
# time and in one piece: instructions, those of a run without requests taken off.
# usage: bench/reader.sh
# Status 1: a line at a time costs more than three times as much. It needs valgrind and python3.
set -eu
root="$(cd "$(dirname "${BASH_SOURCE[0]}")/.." && pwd)"
program="$root/crates/kong_node/out/kong_node"
"$root/bin/kong_node" --version > /dev/null
folder="$(mktemp -d)"
trap 'rm -rf "$folder"' EXIT

# the instructions of a run that reads the declaration, and then the head in pieces of so many bytes
# (0: no head). Each record of the socket is one read.
instructions() {
    python3 - "$1" "$folder/log" valgrind --tool=callgrind --callgrind-out-file="$folder/callgrind" \
        "$program" dry <<'PYTHON'
import socket, subprocess, sys
piece, log, command = int(sys.argv[1]), sys.argv[2], sys.argv[3:]
declaration = b'{"_format_version":"3.0"}\n'
front, end = b"GET / HTTP/1.1\r\nHost: shop.example\r\n", b"\r\n"
lines, left = divmod(65_536 - len(front) - len(end), 3)
head = front + b"a" * left + b"a:\n" * lines + end
assert len(head) == 65_536
ours, theirs = socket.socketpair(socket.AF_UNIX, socket.SOCK_SEQPACKET)
with open(log, "w") as told:
    run = subprocess.Popen(command, stdin=theirs, stdout=subprocess.PIPE, stderr=told)
theirs.close()
ours.send(declaration)
for start in range(0, len(head) if piece else 0, piece or 1):
    ours.send(head[start:start + piece])
ours.close()
text = run.stdout.read()
assert run.wait() == 0, run.returncode
assert text.startswith(b"HTTP/1.1 404 Not Found\r\n" if piece else b""), text[:100]
PYTHON
    sed -n 's/.*Collected : \([0-9]*\).*/\1/p' "$folder/log"
}

start=$(instructions 0)
whole=$(( $(instructions 65536) - start ))
lines=$(( $(instructions 3) - start ))
awk -v lines="$lines" -v whole="$whole" 'BEGIN {
    printf "a head of 65,536 bytes: %d instructions in one piece, %d a line at a time: %.2f times\n", whole, lines, lines / whole
    exit lines > 3 * whole
}'
