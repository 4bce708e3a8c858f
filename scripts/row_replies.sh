#!/bin/sh
# scripts/row_replies.sh ROW: prints the replies of a worked row. They are the row's file `replies`. A row of `check` that
# prints settings has a file `settings` instead: the lines that differ from examples/direct.settings.
set -eu
cd "$(dirname -- "$0")/.."
if [ -e "$1/replies" ]; then
    [ ! -e "$1/settings" ] || { echo "$1 has both replies and settings" >&2; exit 1; }
    cat "$1/replies"
else
    awk -v row="$1" '
        FILENAME == ARGV[1] { lines[$1] = $0; next }
        $1 in lines { print lines[$1]; delete lines[$1]; next }
        { print }
        END { for (key in lines) { print row ": no setting " key > "/dev/stderr"; exit 1 } }
    ' "$1/settings" examples/direct.settings
fi
