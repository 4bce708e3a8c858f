#!/usr/bin/env bash
# Times replays of 2,000 and of 20,000 deploys on the built program. Each deploy is followed until the revision before
# it is removed, which makes nine entries of the history. The second takes less than 13 times as long as the first.
#
# It is processor time, user and system: a machine that has other work delays the longer replay more.
set -euo pipefail
top=$(CDPATH='' cd -- "$(dirname -- "$0")/.." && pwd)
work=$(mktemp -d)
trap 'rm -rf "$work"' EXIT
TIMEFORMAT='%3U %3S'
# Builds the program where it is stale. What is timed is the program itself, since bin/bg_switch first looks for newer
# sources, which may take longer than the smaller replay.
"$top/bin/bg_switch" check < "$top/examples/direct.json" > /dev/null
program=$top/crates/bg_switch/out/bg_switch

# script DEPLOYS: revision 1, then each second a new one, which is switched to; the one before it is due a second later.
script() {
    cat << 'END'
{"spec": {"replicas": 1, "revisionHistoryLimit": 0,
 "strategy": {"blueGreen": {"activeService": "web", "scaleDownDelaySeconds": 1}}}}
---
open v1 9001
available 1 1
END
    awk -v deploys="$1" 'BEGIN {
        for (i = 1; i <= deploys; i++)
            printf "deploy v%d %d\navailable %d 1\ntick %d\n", i + 1, 9001 + i % 1000, i + 1, i
    }'
    echo report
}

# replies DEPLOYS: what the script is answered. Nothing is refused: each revision is ready, resumed, switched to and
# promoted when it is available, and the one before it is scaled down and removed. At the end one is left.
replies() {
    printf 'ok 0\nok 0\n'
    awk -v deploys="$1" 'BEGIN {
        for (i = 1; i <= deploys; i++) print "ok 0\nok 4\nok 2"
        last = deploys + 1
        printf "moment %d\nphase steady\n", deploys
        printf "active %d\npreview %d\nstable %d\nnewest %d\n", last, last, last, last
        printf "revision %d v%d desired 1 available 1 open 0 deadline none\nend\n", last, last
    }'
}

# replay TIMES: replays the script so many times.
replay() {
    for _ in $(seq "$1"); do
        "$program" replay < "$work/script" > "$work/replies" 2>&3
    done
}

# time_replays DEPLOYS TIMES: the time of so many replays of so many deploys, in five rounds, as lines of the file
# `DEPLOYS`. The replies are checked.
time_replays() {
    script "$1" > "$work/script"
    replies "$1" > "$work/wanted"
    for _ in 1 2 3 4 5; do
        { time replay "$2"; } 3>&2 2>> "$work/$1"
        cmp "$work/wanted" "$work/replies"
    done
}

# quickest_ms DEPLOYS TIMES: the milliseconds of one replay, by the quickest of the rounds.
quickest_ms() {
    awk -v times="$2" '
        NR == 1 || $1 + $2 < best { best = $1 + $2 }
        END { printf "%.1f", 1000 * best / times }
    ' "$work/$1"
}

# The smaller replay is too short for a clock of milliseconds, so ten of them are timed at once.
time_replays 2000 10
time_replays 20000 1
small=$(quickest_ms 2000 10)
large=$(quickest_ms 20000 1)
awk -v a="$small" -v b="$large" 'BEGIN {
    printf "2,000 deploys: %.1f ms; 20,000 deploys: %.1f ms\nratio of 20,000 deploys to 2,000: %.2f\n", a, b, b / a
    exit b >= 13 * a
}' || { echo 'the ratio is 13 or more' >&2; exit 1; }
