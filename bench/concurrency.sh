#!/usr/bin/env bash
# bg_switch beside HAProxy and nginx, in alternating rounds on this machine, one connection a request on both sides:
#   concurrency.sh [ROUNDS] [SECONDS] [PROGRAM]      5 rounds of 5 seconds of bin/bg_switch without words
# The endpoint (concurrency/endpoint.c) answers at once, after 100 ms, or after 1 s. Prints a line a round and proxy, the
# medians, the ratios to the better peer, the system calls and the user-space instructions of a request, and the memory
# and the system calls of an idle switch with 1,000 workers. Needs wrk, haproxy, nginx, strace, valgrind and a C compiler.
# Fails where a ratio misses its limit below; where a program is missing, it says so and ends with status 0.
set -u
rounds=${1:-5}; seconds=${2:-5}
top=$(CDPATH='' cd -- "$(dirname -- "$0")/.." && pwd)
program=${3:-$top/bin/bg_switch}
# Requests a second are at least this part of the peer's, and the 99th percentile is at most this multiple of HAProxy's.
least_rate=0.95; most_wait=1.25
for tool in wrk haproxy nginx strace valgrind cc; do
    command -v "$tool" > /dev/null || { echo "concurrency needs $tool: nothing was measured"; exit 0; }
done
ulimit -n "$(ulimit -Hn)"
work=$(mktemp -d)
pids=()
# shellcheck disable=SC2317  # the trap calls it
finish() { kill "${pids[@]}" 2> /dev/null; wait 2> /dev/null; rm -rf "$work"; }
trap finish EXIT
cd "$work" || exit 1
cc -O2 -o endpoint "$top/bench/concurrency/endpoint.c" || exit 1
echo '{"spec":{"replicas":1,"strategy":{"blueGreen":{"activeService":"web"}}}}' > strategy.json

# DELAY in milliseconds: its endpoint listens at 19300, 19301 or 19302; the proxies at the ports that `port_of` gives.
delays=(0 100 1000)
for i in 0 1 2; do ./endpoint $((19300 + i)) "${delays[i]}" & pids+=($!); done

mkdir -p tmp
{
    echo "worker_processes 2; pid $work/nginx.pid; error_log /dev/null crit; events { worker_connections 8192; }"
    echo 'http { access_log off; client_body_temp_path tmp; proxy_temp_path tmp; fastcgi_temp_path tmp; uwsgi_temp_path tmp; scgi_temp_path tmp;'
    for i in 0 1 2; do
        echo "server { listen 127.0.0.1:$((18100 + i)) backlog=4096; keepalive_timeout 0; location / { proxy_http_version 1.1;
            proxy_set_header Connection close; proxy_set_header Host \$host; proxy_pass http://127.0.0.1:$((19300 + i)); } }"
    done
    echo '}'
} > nginx.conf
{
    printf 'global\n nbthread 2\n maxconn 8192\ndefaults\n mode http\n option httpclose\n maxconn 8192\n'
    printf ' timeout connect 5s\n timeout client 30s\n timeout server 30s\n'
    for i in 0 1 2; do
        printf 'frontend f%d\n bind 127.0.0.1:%d backlog 4096\n default_backend b%d\nbackend b%d\n server s 127.0.0.1:%d\n' \
            "$i" $((18200 + i)) "$i" "$i" $((19300 + i))
    done
} > haproxy.cfg
nginx -p "$work" -c nginx.conf -g 'daemon off;' & pids+=($!)
haproxy -f haproxy.cfg -db > /dev/null 2>&1 & pids+=($!)

# switch_at PORT ENDPOINT WORDS..: a switch at PORT, whose control port is PORT + 100. Its number is in `switch`.
switch_at() {
    local port=$1 endpoint=$2; shift 2
    "$program" serve --active "$port" --control $((port + 100)) "$@" --forever < strategy.json > "serve.$port" 2>&1 &
    switch=$!; pids+=("$switch")
    until grep -q listening "serve.$port"; do sleep 0.1; done
    printf 'open v1 %d\navailable 1 1\n' "$endpoint" > lines
    python3 -c 'import socket, sys
s = socket.create_connection(("127.0.0.1", int(sys.argv[1])))
s.sendall(open("lines", "rb").read()); s.shutdown(1)
while s.recv(4096): pass' $((port + 100))
}
for i in 0 1 2; do switch_at $((18300 + i)) $((19300 + i)) --concurrency 1023; done
switch_at 18310 19300 --workers 7

port_of() { # PROXY DELAY_INDEX
    case $1 in nginx) echo $((18100 + $2)) ;; haproxy) echo $((18200 + $2)) ;; few) echo 18310 ;; *) echo $((18300 + $2)) ;; esac
}
# Milliseconds of a time as wrk prints it.
millis() { awk -v x="$1" 'BEGIN { v = x + 0; if (x ~ /us$/) v /= 1000; else if (x ~ /[0-9]s$/) v *= 1000; print v }'; }
round() { # PROXY DELAY_INDEX CONNECTIONS SECONDS
    wrk -t2 -c"$3" -d"$4s" --timeout 20s --latency -H 'Connection: close' "http://127.0.0.1:$(port_of "$1" "$2")/" > load 2>&1
    local rate wait bad
    rate=$(awk '/Requests\/sec/ {print $2}' load)
    wait=$(millis "$(awk '$1 == "99%" {print $2}' load)")
    bad=$(awk '/Non-2xx/ {print $NF} /Socket errors/ {print}' load | tr '\n' ' ')
    echo "$1 ${delays[$2]} $3 $rate $wait" >> lines.all
    printf '%-9s delay %4d ms, %4d clients: %8.0f a second, p99 %8.1f ms %s\n' "$1" "${delays[$2]}" "$3" "$rate" "$wait" "$bad"
}
for delay in 0 1 2; do
    time=$seconds; [ "$delay" = 2 ] && time=$((seconds + 3))
    for clients in 256 1024; do
        [ "$delay$clients" = 01024 ] && continue
        proxies='haproxy nginx bg_switch'; [ "$delay" = 0 ] && proxies="$proxies few"
        for _ in $(seq "$rounds"); do for proxy in $proxies; do round "$proxy" "$delay" "$clients" "$time"; done; done
    done
done
median() { # PROXY DELAY CLIENTS COLUMN
    awk -v p="$1" -v d="$2" -v c="$3" -v f="$4" '$1 == p && $2 == d && $3 == c {print $f}' lines.all |
        sort -n | awk '{a[NR] = $1} END {print a[int((NR + 1) / 2)]}'
}
failed=0
judge() { # TEXT VALUE LIMIT least|most
    printf '%s: %.2f, at %s %s\n' "$1" "$2" "$4" "$3"
    awk -v v="$2" -v l="$3" -v k="$4" 'BEGIN { exit !(k == "least" ? v >= l : v <= l) }' || { echo '  MISSED'; failed=1; }
}
over() { awk -v a="$1" -v b="$2" 'BEGIN { print a / b }'; }
larger() { awk -v a="$1" -v b="$2" 'BEGIN { print (a > b ? a : b) }'; }
for delay in 100 1000; do for clients in 256 1024; do
    judge "ratio of requests a second to HAProxy's, delay $delay ms, $clients clients" \
        "$(over "$(median bg_switch $delay $clients 4)" "$(median haproxy $delay $clients 4)")" $least_rate least
    judge "ratio of p99 to HAProxy's, delay $delay ms, $clients clients" \
        "$(over "$(median bg_switch $delay $clients 5)" "$(median haproxy $delay $clients 5)")" $most_wait most
done; done
better=$(larger "$(median haproxy 0 256 4)" "$(median nginx 0 256 4)")
judge "ratio of requests a second to the better peer's, no delay, 256 clients" "$(over "$(median bg_switch 0 256 4)" "$better")" 1 least
judge "ratio of requests a second to those of 7 workers, no delay, 256 clients" \
    "$(over "$(median bg_switch 0 256 4)" "$(median few 0 256 4)")" 1 least

# One slow route (5 s, 100 clients) beside a fast one (8 clients) of the same endpoint.
switch_at 18320 19300 --concurrency 255
wrk -t1 -c8 -d"${seconds}s" --latency -H 'Connection: close' http://127.0.0.1:18320/ > alone 2>&1
wrk -t1 -c100 -d$((seconds + 2))s --timeout 20s -H 'Connection: close' http://127.0.0.1:18320/slow > /dev/null 2>&1 & slow=$!
sleep 1
wrk -t1 -c8 -d"${seconds}s" --latency -H 'Connection: close' http://127.0.0.1:18320/ > beside 2>&1
wait "$slow"
judge 'ratio of p99 of 8 fast clients beside 100 slow ones to their p99 alone' \
    "$(over "$(millis "$(awk '$1 == "99%" {print $2}' beside)")" "$(millis "$(awk '$1 == "99%" {print $2}' alone)")")" 2 most

# System calls of a request under load, of all threads. A switch of its own: the one before still looks up whether its 100
# slow clients have gone, which reads the whole table of sockets.
switch_at 18340 19300 --concurrency 255
strace -c -f -o calls -p "$switch" 2> /dev/null & tracer=$!
sleep 1
wrk -t1 -c64 -d3s -H 'Connection: close' http://127.0.0.1:18340/ > load 2>&1
kill -INT "$tracer"; wait "$tracer" 2> /dev/null
requests=$(awk '/requests in/ {print $1}' load)
calls=$(awk '$4 + 0 > 0 && $NF != "total" {t += $4} END {print t}' calls)
printf 'ratio of system calls to requests: %.2f\n' "$(over "$calls" "$requests")"

# An idle switch with 1,000 workers.
switch_at 18330 19300 --concurrency 1000
sleep 2
awk '/VmRSS|Threads/ {print "idle, 1,000 workers: " $1, $2, $3}' "/proc/$switch/status"
# strace interrupts each thread as it begins, and so makes each of them call again: the first three seconds don't count
timeout 13 strace -f -ttt -o idle -p "$switch" 2> /dev/null
judge 'system calls a second of an idle switch with 1,000 workers' \
    "$(awk 'NR == 1 {first = $2} $2 > first + 3 && /\(/ && !/resumed/ {t++} END {print t / 10}' idle)" 10 most
exit $failed
