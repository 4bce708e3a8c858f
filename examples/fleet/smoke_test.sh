#!/bin/sh
# An analysis: asks the service at port $1 of 127.0.0.1 five times. It fails (status 1) where one request of them isn't answered
# by the revision that it judges: each page begins with the name of its revision.
set -eu
for _ in 1 2 3 4 5; do
    page=$(curl -sS --fail --max-time 5 "http://127.0.0.1:$1/") || exit 1
    case $page in
        "$BG_REVISION"*) ;;
        *) echo "$page is not of $BG_REVISION" >&2; exit 1 ;;
    esac
    sleep 0.1
done
