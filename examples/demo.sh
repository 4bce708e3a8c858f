#!/bin/sh
# Replays the examples: for each its name, and each line of its script beside what it is answered. A report stands below
# its line.
set -eu
cd "$(dirname -- "$0")/.."
program=bin/bg_switch
[ -x "$program" ] || program=bg_switch # from the package
work=$(mktemp -d)
trap 'rm -rf "$work"' EXIT
for example in examples/*.txt; do
    printf '\n%s\n\n' "$example"
    "$program" replay < "$example" > "$work/replies"
    awk -v replies="$work/replies" '
        !in_script { in_script = ($0 == "---"); next }
        $1 == "quit" && NF == 1 { print "    " $0; exit }
        {
            getline reply < replies
            if ($1 != "report" || NF != 1 || reply ~ /^(refused|fault) /) { printf "    %-38s => %s\n", $0, reply; next }
            print "    " $0
            do print "        " reply; while (reply != "end" && (getline reply < replies) > 0)
        }' "$example"
done
