#!/bin/sh
# An audit goes once through a history: prints the times of 10,000 and of 100,000 entries of a served book and their
# ratio, and fails where an answer is false or the second takes a second or more. The ratio is above 10 where the shorter
# history fits into the processor's caches.
set -eu
bench=$(dirname -- "$0")
printed=$("$bench/run.sh" audit "bg_strategy bg_strategy_text bg_revisions bg_history bg_audit")
echo "$printed" | grep 'entries audited'
test "$(echo "$printed" | grep -c 'audited true')" -eq 2
percent=$(echo "$printed" | sed -n 's/^ratio in percent: //p')
echo "ratio of 100,000 entries to 10,000: $((percent / 100)).$(printf %02d $((percent % 100)))"
test "$(echo "$printed" | sed -n 's/.*audited true: \([0-9]*\) ns$/\1/p' | tail -n 1)" -lt 1000000000
