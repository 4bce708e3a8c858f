#!/bin/sh
# Times 400,000 pairs of a request's leaving and entering again, with 1 and 8 open requests and with 1 and 64 revisions,
# of which the newest is active. Prints the nanoseconds of a pair, and fails where a pair costs half as much again with 8
# open requests as with 1, or with 64 revisions as with one.
set -eu
bench=$(dirname -- "$0")
printed=$("$bench/run.sh" lists 'bg_strategy bg_strategy_text bg_revisions bg_history bg_ledger bg_rollout bg_book')
echo "$printed" | awk '
    { printf "%d open, %d revision%s: %.0f ns a pair\n", $1, $2, ($2 > 1 ? "s" : ""), $3 / 400000; time[$1, $2] = $3 }
    END { few = time[8, 1] / time[1, 1]; many = time[8, 64] / time[1, 64]; revisions = time[1, 64] / time[1, 1]
    printf "ratio of 8 open requests to 1: %.2f\nratio of 8 open requests to 1, with 64 revisions: %.2f\n", few, many
    printf "ratio of 64 revisions to 1: %.2f\n", revisions
    exit few >= 1.5 || many >= 1.5 || revisions >= 1.5 }'
