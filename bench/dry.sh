#!/usr/bin/env bash
# Measures `kong_node dry` over 10, 1,000 and 10,000 routes, told apart by their paths and by their hosts; over
# the worked example of two routes, as it is and with six plugins on each of them; over that example beside
# 10, 1,000 and 10,000 rows of one plugin, none of which runs: choosing a row must cost the same; and over that
# example with a key in each request, without plugins and with key-auth and rate-limiting on each route, beside 1
# consumer and beside 100,000, of whom each sends its requests in turn.
# usage: bench/dry.sh [LIMIT.c]
# For each it prints the median wall time of five runs over 1,000 requests and, where valgrind is
# installed, the instructions per request (those of a run without requests taken off).
# With LIMIT.c, a C program that answers the requests of the worked example alone, it prints how many
# times its instructions per request the gateway takes.
# Status 1: with key-auth and rate-limiting a request takes more than 2.5 times the instructions of one without
# plugins, or beside 100,000 consumers a tenth more than beside 1, or a tenth less.
set -eu
root="$(cd "$(dirname "${BASH_SOURCE[0]}")/.." && pwd)"
program="$root/crates/kong_node/out/kong_node"
requests=1000
"$root/bin/kong_node" --version > /dev/null
folder="$(mktemp -d)"
trap 'rm -rf "$folder"' EXIT

# writes $folder/declaration, and $folder/run with the requests behind it
write_run() {
    python3 - "$1" "$2" "$requests" "$folder" <<'PYTHON'
import json, sys
by, count, requests, folder = sys.argv[1], int(sys.argv[2]), int(sys.argv[3]), sys.argv[4]
agent = "User-Agent: Mozilla/5.0\r\nAccept: application/json\r\nAccept-Language: en\r\n"

def service(i):
    route = {"name": f"r{i}", "paths": [f"/p{i}/"]} if by == "path" else \
        {"name": f"r{i}", "paths": ["/"], "hosts": [f"h{i}.example"]}
    return {"name": f"s{i}", "url": f"http://up{i}.example/v{i}", "routes": [route]}

def request(i):
    n = i * 7919 % count
    path, host = (f"/p{n}", "shop.example") if by == "path" else ("", f"h{n}.example")
    return f"GET {path}/item/{i}?q=1 HTTP/1.1\r\nHost: {host}\r\n{agent}\r\n"

# each passes the request on
six = [
    {"name": "cors", "config": {"origins": ["http://a.example"]}},
    {"name": "ip-restriction", "config": {"deny": ["10.0.0.0/8"]}},
    {"name": "request-size-limiting", "config": {"allowed_payload_size": 1}},
    {"name": "request-transformer", "config": {"add": {"headers": ["x-a:1"]}}},
    {"name": "response-transformer", "config": {"add": {"headers": ["x-b:2"]}}},
    {"name": "request-termination", "enabled": False},
]
# each passes the request on, once it has asked
asking = [{"name": "key-auth"}, {"name": "rate-limiting", "config": {"minute": 1000000000}}]
rows = {}
if by in ("path", "host"):
    rows["services"] = [service(i) for i in range(count)]
    texts = [request(i) for i in range(requests)]
else:
    routes = [{"name": "f", "paths": ["/fv0"], "strip_path": False}, {"name": "t", "paths": ["/tv0"]}]
    if by == "plugins":
        routes = [{**route, "plugins": six} for route in routes]
    if by == "asking":
        routes = [{**route, "plugins": asking} for route in routes]
    if by == "rows":
        rows["consumers"] = [{"username": f"c{i}", "plugins": [{"name": "response-transformer"}]} for i in range(count)]
    if by in ("keys", "asking"):
        rows["consumers"] = [{"username": f"c{i}", "keyauth_credentials": [{"key": f"k{i}"}]} for i in range(count)]
    rows["services"] = [{"name": "s", "url": "http://up.example/s", "routes": routes}]
    paths = ["/fv0/req", "/tv0/req", "/tv0req"]
    key = "apikey: k{}\r\n" if by in ("keys", "asking") else ""
    texts = [
        f"GET {paths[i % 3]} HTTP/1.1\r\nHost: shop.example\r\n{key.format(i * 7919 % count)}\r\n"
        for i in range(requests)
    ]
line = json.dumps({"_format_version": "3.0", **rows}, separators=(",", ":")) + "\n"
with open(f"{folder}/declaration", "w") as out:
    out.write(line)
with open(f"{folder}/run", "w", newline="") as out:
    out.write(line + "".join(texts))
PYTHON
}

median_time() {
    for _ in 1 2 3 4 5; do
        local began
        began=$(date +%s%N)
        "$program" dry < "$folder/run" > "$folder/replies"
        echo $(( ($(date +%s%N) - began) / 1000 ))
    done | sort -n | sed -n 3p
}

instructions() {
    valgrind --tool=callgrind --callgrind-out-file="$folder/callgrind" "$@" 2> "$folder/log" > /dev/null
    sed -n 's/.*Collected : \([0-9]*\).*/\1/p' "$folder/log"
}

# the instructions per request of a program over $folder/run
per_request() {
    local whole start
    whole=$(instructions "$@" < "$folder/run")
    start=$(instructions "$@" < "$folder/declaration")
    echo $(( (whole - start) / requests ))
}

has_valgrind() { command -v valgrind > /dev/null; }

# what the run that was written last takes; `took` is its instructions a request
tell() {
    local told
    told="$1, $requests requests: median of five runs $(median_time) microseconds"
    if has_valgrind; then
        took=$(per_request "$program" dry)
        told="$told, $took instructions a request"
    fi
    echo "$told"
}

# how many times the second number the first is, whether that is within the bounds, and what it is of
compare() {
    awk -v ours="$1" -v theirs="$2" -v least="$3" -v most="$4" -v of="$5" 'BEGIN {
        times = ours / theirs
        printf "%s: %.2f times, of at least %s and at most %s\n", of, times, least, most
        exit times < least || times > most
    }'
}

for by in path host; do
    for routes in 10 1000 10000; do
        write_run "$by" "$routes"
        tell "$routes routes by $by"
    done
done
write_run example 2
tell "worked example"
write_run plugins 2
tell "worked example with six plugins on its routes"
for rows in 10 1000 10000; do
    write_run rows "$rows"
    tell "worked example beside $rows rows of a plugin"
done

declare -A took_by
for by in keys asking; do
    for consumers in 1 100000; do
        write_run "$by" "$consumers"
        with=$([ "$by" = keys ] && echo "without plugins" || echo "with key-auth and rate-limiting")
        tell "worked example with a key in each request, $with, beside $consumers consumers"
        took_by[$by$consumers]=${took:-}
    done
done
failed=0
if has_valgrind; then
    for consumers in 1 100000; do
        compare "${took_by[asking$consumers]}" "${took_by[keys$consumers]}" 0 2.5 \
            "key-auth and rate-limiting against no plugins, beside $consumers consumers" || failed=1
    done
    compare "${took_by[asking100000]}" "${took_by[asking1]}" 0.9 1.1 \
        "key-auth and rate-limiting beside 100000 consumers against beside 1" || failed=1
fi

if [ $# -gt 0 ] && has_valgrind && command -v gcc > /dev/null; then
    gcc -O2 -o "$folder/limit" "$1"
    write_run example 2
    "$folder/limit" < "$folder/run" > "$folder/expected"
    "$program" dry < "$folder/run" > "$folder/replies"
    cmp "$folder/expected" "$folder/replies"
    ours=$(per_request "$program" dry)
    limit=$(per_request "$folder/limit")
    times=$(awk -v ours="$ours" -v limit="$limit" 'BEGIN { printf "%.1f", ours / limit }')
    echo "worked example: $ours instructions a request, $limit of the limit program: $times times"
fi
exit "$failed"
