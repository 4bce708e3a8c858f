#!/bin/sh
# A link and an unlink in the middle cost the same at 8 and at 256 linked nodes: prints both times
# and their ratio, and fails where the ratio is 1.5 or more.
set -eu
bench=$(dirname -- "$0")
printed=$("$bench/run.sh" openlist bg_openlist)
echo "$printed" | grep 'turns at'
percent=$(echo "$printed" | sed -n 's/^ratio in percent: //p')
echo "ratio of 256 linked nodes to 8: $((percent / 100)).$(printf %02d $((percent % 100)))"
test "$percent" -lt 150
