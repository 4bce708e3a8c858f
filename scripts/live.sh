#!/bin/sh
# Runs `serve` of the built program before small endpoints on loopback (python3, and curl). The parts are the files of tests/live,
# and run side by side, since they mostly wait:
#   live             what clients, operators and endpoints get through a rollout, and the last report
#   live_starting    faults of the strategy, and ports that are taken
#   live_timeouts    slow clients and endpoints, and requests that are given up
#   live_resources   connections that are used up; descriptors and threads that can't be had
#   live_concurrency hundreds of requests at a time, and event loops that wait
#   live_memory      the memory of uploads that come at once, and of messages of mixed sizes; responses that are not taken
#   live_attack      hostile clients, endpoints and operators
#   live_random      ten thousand exchanges at random
#   live_operator    the operator's tool
#   live_controller  the controller
#   live_crash       crashes of the switch and of the controller
#   live_readme, live_operating   the sessions of README.md and of docs/OPERATING.md
#   live_fleet_pages the session of docs/FLEET.md, and the demonstration of a fleet
#   live_clients     slow, silent, hasty and many clients
#   live_endpoints   endpoints that hang, are silent, or are ports of the switch
#   live_operators   the users whose orders are taken
#   live_control     what holds up the control port, and what browsers send there
#   live_shutdown    the graceful shutdown, and what is told on standard error
#   live_production  the files of examples/production, before nginx
#   live_access_log, live_access_log_random   the access log, and two thousand connections of all kinds beside it
#   live_history     a full history
#   live_error_pages the pages of refusals
#   live_addresses   endpoints at other addresses than 127.0.0.1
#   live_streams     responses that are passed on as they come
#   live_uploads, live_cut_uploads, live_slow_uploads   large requests that are passed on as they come: whole, cut, and slow
#   live_forwarded   what requests tell their endpoints of where they come from
#   live_upgrade     upgrades, as WebSockets, and the tunnels that they become
#   live_containers  the files of examples/production/containers, with endpoints in a network namespace
#   live_event_loop  the event loop of bg_event_loop, by a program of its own
#   live_keep_alive  connections of clients and to endpoints that are kept
#   live_journal     what a start resumes from a journal, disks that fail, and kills at random
#   live_resumed     a controller, operators and clients before switches with a journal that are killed
#   live_analysis    outages that analyses find, by the access log, by reports and by Prometheus
#   live_dashboard   the dashboard's page in a browser, and a bad revision that its analysis takes back
#   live_fleet       a fleet of three machines with etcd, HAProxy and nginx, each kind of fault once, and the rules of a fleet
set -eu
cd "$(dirname -- "$0")/.."
# Builds the programs where they are stale.
bin/bg_switch check < examples/direct.json > /dev/null
scripts/build_if_stale.sh bg_tests_event_loop 0 close empty slot /dev/null 9 9
work=$(mktemp -d)
trap 'rm -rf "$work"' EXIT
# The longest begin first. Two at a time for each processor are as fast as all at once, since the longest is as long, and each
# has more of the processors.
parts='live_clients live_history live_endpoints live_operators live_access_log_random live_control live_operator live_concurrency
    live_access_log live_timeouts live_operating live_random live_analysis live_shutdown live_attack live_controller live_event_loop
    live_keep_alive live_resources live_streams live_journal live_memory live live_readme live_production live_error_pages live_addresses
    live_forwarded live_upgrade live_slow_uploads live_cut_uploads live_uploads live_containers live_starting'
# These run alone, since they start many programs: controllers with their switches, a browser, and fleets.
alone='live_crash live_resumed live_dashboard live_fleet live_fleet_pages'
# play COUNT PART..: runs the parts, so many at a time.
play() {
    count=$1
    shift
    # shellcheck disable=SC2016  # the shell of each part has these variables
    printf '%s\n' "$@" | work=$work PYTHONPATH=scripts xargs -n 1 -P "$count" sh -c \
        'if python3 -B "tests/live/$0.py" > "$work/$0" 2>&1; then : > "$work/$0.passed"; fi'
}
# shellcheck disable=SC2086  # the names of the parts
play $((2 * $(nproc))) $parts
# shellcheck disable=SC2086
play 1 $alone
failed=0
for part in $parts $alone; do
    cat "$work/$part"
    [ -e "$work/$part.passed" ] || { echo "live: $part has failed"; failed=1; }
done
exit "$failed"
