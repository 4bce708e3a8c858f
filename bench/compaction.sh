#!/bin/sh
# Times the compaction of a book's history of 10,000, 100,000 and 1,000,000 entries: requests of one seat that all left;
# these beside a request at each of seven other seats that entered before them and stays; and ticks beside a request at
# each of eight seats. Then that of 65,536 entries of 7, 250 and 2,047 seats, each of which has an open request throughout.
# Prints the nanoseconds of an entry, and the ratio of the dearest run of each kind to the first one. Fails where a ratio is
# six or more: the longest history, of 40 MB, fits no cache. Time that grew as the square of the length, or with the number
# of seats, would make it a hundred.
set -eu
bench=$(dirname -- "$0")
printed=$("$bench/run.sh" compaction 'bg_strategy bg_strategy_text bg_revisions bg_history bg_ledger bg_rollout bg_book')
echo "$printed" | awk '
    { cost = $4 / $2; printf "%s, %d seats: %d entries, of which %d stay: %.1f ns an entry, %.2f ms\n", $1, $5, $2, $3, cost, $4 / 1e6 }
    !($1 in first) { first[$1] = cost }
    cost > most[$1] { most[$1] = cost }
    cost >= 6 * first[$1] { failed = 1 }
    END { for (kind in first) printf "ratio of an entry of %s to one of the first run: %.2f\n", kind, most[kind] / first[kind]; exit failed }'
