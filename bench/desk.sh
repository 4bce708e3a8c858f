#!/bin/sh
# Times 400,000 pairs of a request's entering and leaving: at a book, and at a desk from 1, 2 and 4 threads. Prints the
# pairs a second, and fails where the desk costs one thread half as much again as the book, or more.
set -eu
bench=$(dirname -- "$0")
printed=$("$bench/run.sh" desk 'bg_strategy bg_strategy_text bg_revisions bg_history bg_ledger bg_rollout bg_book')
echo "$printed" | awk '
    { printf "%s, %d thread%s: %.0f pairs a second\n", $1, $2, ($2 > 1 ? "s" : ""), 400000 / $3 * 1e9 }
    $2 == 1 { time[$1] = $3 }
    END { ratio = time["desk"] / time["book"]
    printf "ratio of the desk to the book, one thread: %.2f\n", ratio; exit ratio >= 1.5 }'
