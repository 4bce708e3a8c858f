#!/bin/sh
# Times what a tick asks of 64 deadlines: of the table sorted by deadline, and of one in the order of leaving alone. Prints
# the nanoseconds of a tick, and fails where the two differ in how many ticks find a revision, or where the sorted one
# takes as long as the other, or longer.
set -eu
bench=$(dirname -- "$0")
printed=$("$bench/run.sh" deadlines 'bg_revisions bg_scaledown')
echo "$printed" | awk '
    { gsub("_", " ", $1); printf "%s: %.0f ns, in one order %.0f ns\n", $1, $3 / 100000, $5 / 100000 }
    { printf "ratio of a sorted table to one in one order, %s: %.5f\n", $1, $3 / $5 }
    $2 != $4 || $3 >= $5 { failed = 1 }
    END { exit failed || NR < 4 }'
