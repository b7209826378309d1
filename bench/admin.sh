#!/usr/bin/env bash
# Measures what one request of the Admin API costs at 100, 10,000 and 100,000 consumers with a key each: GET, POST, PATCH, PUT and
# DELETE of a consumer and of a key, and a page of 100 consumers.
# usage: bench/admin.sh [CONSUMERS ..]
# The stores are served side by side by a program each. In turn each is sent 25 requests of one kind, for rows all over it, and
# the processor time that it takes for their replies is one sample; a request's time is the median of 40. POSTs are followed by
# the DELETEs of what they made, so that the stores keep their sizes. Where valgrind is installed, a request's instructions are
# counted as well, over 100 requests of each kind.
# Status 1: with more consumers some request takes more than 1.3 times its instructions with the fewest. Times also tell how far
# from the processor the rows of a large store lie, so they are only printed.
# The program is built first where it isn't there. It needs python3 and /proc/PID/schedstat.
set -eu
root="$(cd "$(dirname "${BASH_SOURCE[0]}")/.." && pwd)"
"$root/bin/admin_demo" --version > /dev/null
[ $# -gt 0 ] || set -- 100 10000 100000
exec python3 - "$root/crates/kg_admin_demo/out/kg_admin_demo" "$@" <<'PYTHON'
import glob
import re
import shutil
import statistics
import subprocess
import sys
import tempfile
import threading

PROGRAM, NUMBERS = sys.argv[1], [int(word) for word in sys.argv[2:]]
MOST_TIMES = 1.3
BATCH = 25
ROUNDS = 40
# the same where instructions are counted
COUNTED_ROUNDS = 4
PAGE = 100
# what is measured, in the order in which it is asked
KINDS = [f"{method} {row}" for row in ("consumer", "key") for method in ("GET", "PATCH", "PUT", "POST", "DELETE")]
KINDS.append("GET page")
LENGTH = re.compile(rb"content-length: (\d+)\r\n")


def request(method, target, body=""):
    length = f"Content-Length: {len(body)}\r\n" if body else ""
    return f"{method} {target} HTTP/1.1\r\nHost: x\r\n{length}\r\n{body}".encode()


def drawn(number):
    """The id of the so many-th row that is made."""
    return f"00000000-0000-4000-8000-{number:012x}"


class Store:
    """A program with so many consumers, each with a key, and what is known of its rows."""

    def __init__(self, consumers, *under):
        """`under` are the words of a program that runs it."""
        self.consumers = consumers
        self.keys = [f"k{i}" for i in range(consumers)]
        self.step = 0
        words = [PROGRAM, "--requests", "1000000", "--rows", str(consumers + BATCH)]
        self.run = subprocess.Popen([*under, *words], stdin=subprocess.PIPE, stdout=subprocess.PIPE)
        made = [request("POST", "/consumers", f'{{"username":"c{i}"}}') for i in range(consumers)]
        made += [request("POST", f"/consumers/c{i}/key-auth", f'{{"key":"k{i}"}}') for i in range(consumers)]
        self.ask(made, b"201")
        self.samples = {kind: [] for kind in KINDS}
        # the number of the turn, and whose keys were made in it
        self.round = 0
        self.places = []

    def ask(self, requests, status):
        """Sends requests and reads their replies, each of which has this status."""
        # all at once they may be more than the pipes take
        writer = threading.Thread(target=self.send, args=(b"".join(requests),))
        writer.start()
        for _ in requests:
            head = b""
            while not head.endswith(b"\r\n\r\n"):
                line = self.run.stdout.readline()
                if not line:
                    sys.exit(f"{PROGRAM} ended with {self.run.wait()}")
                head += line
            length = LENGTH.search(head)
            body = self.run.stdout.read(int(length[1])) if length else b""
            if not head.startswith(b"HTTP/1.1 " + status):
                sys.exit(f"{PROGRAM} answered {head} {body[:200]}")
        writer.join()

    def send(self, text):
        self.run.stdin.write(text)
        self.run.stdin.flush()

    def time(self):
        """The processor time of the program so far, in nanoseconds."""
        with open(f"/proc/{self.run.pid}/schedstat") as told:
            return int(told.read().split()[0])

    def spent(self):
        """What it took so far, as samples tell it."""
        return self.time() / 1000

    def measure(self, kind):
        """Takes one sample of this kind."""
        chosen = [self.place() for _ in range(BATCH)]
        news = [f"{self.round}-{i}" for i in range(BATCH)]
        requests, status = getattr(self, kind.lower().replace(" ", "_"))(chosen, news)
        before = self.spent()
        self.ask(requests, status)
        self.samples[kind].append((self.spent() - before) / BATCH)

    def place(self):
        """A consumer's number, which goes about over all of them."""
        self.step += 1
        return self.step * 7919 % self.consumers

    # each of the following gives the requests of a sample, and the status that answers each: of the consumers with the
    # numbers `chosen`, and by the texts `news`, which no row has

    def get_page(self, chosen, news):
        after = [drawn(i % max(1, self.consumers - PAGE)) for i in chosen]
        return [request("GET", f"/consumers?offset={id}&size={PAGE}") for id in after], b"200"

    def get_consumer(self, chosen, news):
        return [request("GET", f"/consumers/c{i}") for i in chosen], b"200"

    def patch_consumer(self, chosen, news):
        return [request("PATCH", f"/consumers/c{i}", f'{{"custom_id":"p{n}"}}') for i, n in zip(chosen, news)], b"200"

    def put_consumer(self, chosen, news):
        body = '{{"username":"c{}","custom_id":"q{}"}}'
        return [request("PUT", f"/consumers/c{i}", body.format(i, n)) for i, n in zip(chosen, news)], b"200"

    def post_consumer(self, chosen, news):
        return [request("POST", "/consumers", f'{{"username":"n{n}"}}') for n in news], b"201"

    def delete_consumer(self, chosen, news):
        return [request("DELETE", f"/consumers/n{n}") for n in news], b"204"

    def get_key(self, chosen, news):
        return [request("GET", f"/consumers/c{i}/key-auth/{self.keys[i]}") for i in chosen], b"200"

    def patch_key(self, chosen, news):
        return self.changed_keys("PATCH", "p", chosen, news)

    def put_key(self, chosen, news):
        return self.changed_keys("PUT", "q", chosen, news)

    def changed_keys(self, method, sort, chosen, news):
        requests = []
        for i, n in zip(chosen, news):
            requests.append(request(method, f"/consumers/c{i}/key-auth/{self.keys[i]}", f'{{"key":"{sort}{n}"}}'))
            self.keys[i] = f"{sort}{n}"
        return requests, b"200"

    def post_key(self, chosen, news):
        self.places = chosen
        return [request("POST", f"/consumers/c{i}/key-auth", f'{{"key":"n{n}"}}') for i, n in zip(chosen, news)], b"201"

    def delete_key(self, chosen, news):
        return [request("DELETE", f"/consumers/c{i}/key-auth/n{n}") for i, n in zip(self.places, news)], b"204"


class CountedStore(Store):
    """The same under callgrind, which counts from when the rows are there. Samples are instructions."""

    def __init__(self, consumers, folder):
        self.counts = f"{folder}/{consumers}"
        # what was counted before the last sample, since each dump begins anew
        self.before = 0
        super().__init__(
            consumers, "valgrind", "-q", "--tool=callgrind", "--instr-atstart=no", f"--callgrind-out-file={self.counts}"
        )
        self.control("--instr=on")

    def control(self, word):
        subprocess.run(["callgrind_control", word, str(self.run.pid)], check=True, capture_output=True)

    def spent(self):
        self.control("--dump")
        newest = max(glob.glob(f"{self.counts}.*"), key=lambda name: int(name.rsplit(".", 1)[1]))
        with open(newest) as told:
            self.before += next(int(line.split()[1]) for line in told if line.startswith("totals:"))
        return self.before


def measure(stores, rounds):
    for number in range(rounds):
        for kind in KINDS:
            for store in stores:
                store.round = number
                store.measure(kind)
    for store in stores:
        store.run.stdin.close()
        store.run.wait()


def tell(unit, stores, digits):
    """Prints the medians of each kind, and how many times as much a larger store takes. Answers the largest of these."""
    largest = 0
    for kind in KINDS:
        costs = [statistics.median(store.samples[kind]) for store in stores]
        most = max(costs) / costs[NUMBERS.index(min(NUMBERS))]
        largest = max(largest, most)
        told = ", ".join(f"{cost:.{digits}f} at {store.consumers}" for cost, store in zip(costs, stores))
        print(f"{kind}: {unit} {told}: at most {most:.2f} times", flush=True)
    return largest


timed = [Store(number) for number in NUMBERS]
measure(timed, ROUNDS)
tell("microseconds", timed, 1)
if not shutil.which("valgrind"):
    sys.exit("instructions are not counted: valgrind isn't installed")
with tempfile.TemporaryDirectory() as folder:
    counted = [CountedStore(number, folder) for number in NUMBERS]
    measure(counted, COUNTED_ROUNDS)
    sys.exit(tell("instructions", counted, 0) > MOST_TIMES)
PYTHON
