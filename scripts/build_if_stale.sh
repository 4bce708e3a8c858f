#!/bin/sh
# Proves and builds the program of a crate where it is missing or older than the sources, as bin/bg_switch does the switch. Then
# runs it once, with these words and without input.
# usage: scripts/build_if_stale.sh CRATE [WORD..]
set -eu
cd "$(dirname -- "$0")/.."
crate=$1
shift
program=crates/$crate/out/$crate
if [ -x "$program" ] &&
    [ -z "$(find crates crates.txt -name out -prune -o -type f -newer "$program" -print | head -n 1)" ]; then
    exit
fi
built=$(cd "crates/$crate" && rt run -- "$@" < /dev/null 2>&1) || { printf '%s\n' "$built" >&2; exit 1; }
touch "$program"
