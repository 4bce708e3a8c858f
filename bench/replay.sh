#!/bin/sh
# Times replays of 40,000 and of 400,000 pairs of enter and leave, and of a script of 30 MB, on the built program.
# The second takes less than 13 times as long as the first; the script of 30 MB is read to its end within a second.
# Then sets the processor time of the 400,000 pairs beside that of bench/plain_replay, a plain Rust program, which rustc
# compiles.
set -eu
top=$(CDPATH='' cd -- "$(dirname -- "$0")/.." && pwd)
work=$(mktemp -d)
trap 'rm -rf "$work"' EXIT
strategy='{"spec": {"replicas": 2, "strategy": {"blueGreen": {"activeService": "web"}}}}'

script() {
    printf '%s\n---\nopen v1 9001 9002\navailable 1 2\n' "$strategy"
    awk -v pairs="$1" 'BEGIN { for (i = 0; i < pairs; i++) print "enter 0 active\nleave 0" }'
}

# Milliseconds of the quickest of three replays of a file, whose last reply is checked.
replay_ms() {
    best=
    for _ in 1 2 3; do
        start=$(date +%s%N)
        "$top/bin/bg_switch" replay < "$1" > "$work/replies" || true
        end=$(date +%s%N)
        ms=$(((end - start) / 1000000))
        if [ -z "$best" ] || [ "$ms" -lt "$best" ]; then best=$ms; fi
    done
    last=$(tail -n 1 "$work/replies")
    [ "$last" = "$2" ] || { echo "the last reply is '$last', not '$2'" >&2; exit 1; }
    echo "$best"
}

# time_pairs NAME PROGRAM WORD..: lets a program replay the 400,000 pairs. Its replies are the file NAME; the seconds,
# user and system, are a further line of NAME.seconds.
time_pairs() {
    name=$work/$1
    shift
    bash -c 'TIMEFORMAT="%3U %3S"; time "$@"' bash "$@" < "$work/large" > "$name" 2>> "$name.seconds" ||
        { cat "$name.seconds" >&2; exit 1; }
}

# Milliseconds of the quickest of the runs with this name.
quickest_ms() {
    awk 'NR == 1 || $1 + $2 < best { best = $1 + $2 } END { printf "%.0f", 1000 * best }' "$work/$1.seconds"
}

ratio() {
    awk -v a="$1" -v b="$2" 'BEGIN { printf "%.2f", b / a }'
}

rustc --edition 2021 -O -o "$work/plain_replay" "$top/bench/plain_replay/plain_replay.rs"
"$top/bin/bg_switch" check < "$top/examples/direct.json" > /dev/null
script 40000 > "$work/small"
script 400000 > "$work/large"
{ printf '%s\n---\n' "$strategy"; yes 'report' | head -c 31457272; } > "$work/long"
small=$(replay_ms "$work/small" 'left 40000 revision 1')
large=$(replay_ms "$work/large" 'left 400000 revision 1')
long=$(replay_ms "$work/long" 'refused NotOpen')
echo "40,000 pairs: $small ms; 400,000 pairs: $large ms"
echo "ratio of 400,000 pairs to 40,000: $(ratio "$small" "$large")"
echo "30 MB: $long ms"
[ "$large" -lt $((13 * small)) ] || { echo 'the ratio is 13 or more' >&2; exit 1; }
[ "$long" -lt 1000 ] || { echo 'the script of 30 MB took a second or more' >&2; exit 1; }

# In turn, five times. Not by bin/bg_switch, which first looks for newer sources.
for _ in 1 2 3 4 5; do
    time_pairs proved "$top/crates/bg_switch/out/bg_switch" replay
    time_pairs plain "$work/plain_replay"
done
cmp "$work/proved" "$work/plain"
proved=$(quickest_ms proved)
plain=$(quickest_ms plain)
echo "400,000 pairs, processor time: $proved ms; plain Rust: $plain ms"
echo "ratio of the program to plain Rust, 400,000 pairs: $(ratio "$plain" "$proved")"
