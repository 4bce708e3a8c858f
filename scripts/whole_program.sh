#!/bin/sh
# Runs the built program, and compares its exit status and what it writes: on the worked rows and the examples, on words
# that are no order, on faults, and where input or output fails.
set -eu
cd "$(dirname -- "$0")/.."
# Builds the program where it is stale, so that no run below has the build's messages on standard error.
bin/bg_switch check < examples/direct.json > /dev/null
work=$(mktemp -d)
trap 'rm -rf "$work"' EXIT
passed=0
failed=0

# expect STATUS REPLIES COMPLAINT WORD..: with these words the program ends with STATUS, writes the file REPLIES on
# standard output, and on standard error what the shell's pattern COMPLAINT matches.
expect() {
    expect_to "$work/replies" "$@"
}

# expect_to FILE ..: the same, where standard output is FILE.
expect_to() {
    file=$1 status=$2 replies=$3 complaint=$4
    shift 4
    : > "$work/replies"
    end=0
    bin/bg_switch "$@" > "$file" 2> "$work/complaint" || end=$?
    cmp -s "$replies" "$work/replies" || end="$end, with other replies"
    # shellcheck disable=SC2254  # a pattern of the shell
    case $(cat "$work/complaint") in
        $complaint) ;;
        *) end="$end, with '$(cat "$work/complaint")' on standard error" ;;
    esac
    if [ "$end" = "$status" ]; then
        passed=$((passed + 1))
    else
        failed=$((failed + 1))
        echo "FAILED: bg_switch $*: it ended with $end"
    fi
}

# The worked rows. Where the strategy is no JSON, standard error says where it breaks.
for row in rows/*; do
    scripts/row_replies.sh "$row" > "$work/row_replies"
    complaint=''
    ! grep -qx 'fault NotJson' "$work/row_replies" || complaint='bg_switch: the strategy is no JSON: *'
    # shellcheck disable=SC2046  # the words of the command
    expect "$(cat "$row/status")" "$work/row_replies" "$complaint" $(cat "$row/command") < "$row/input"
done

# The examples.
for example in examples/*.txt; do
    expect 0 "${example%.txt}.replies" '' replay < "$example"
done
expect 0 examples/direct.settings '' check < examples/direct.json
expect 0 examples/tested_before_and_after.settings '' check < examples/tested_before_and_after.json

# Words that are no order.
expect 2 /dev/null '?*' < /dev/null
while read -r words; do
    # shellcheck disable=SC2086  # the words of a line, split at its spaces
    expect 2 /dev/null '?*' $words < /dev/null
done << 'END'
help
--help
serve
checks
check more
check --seats 2
replay --seats
replay --seats 0
replay --seats 9
replay --seats four
replay --seats 2 --seats 3
serve --active 1 --control 2 --workers 3
serve --active 1 --control 2 --count 4
serve --active 1 --workers 3 --count 4
serve --control 2 --workers 3 --count 4
serve --active 0 --control 2 --workers 3 --count 4
serve --active 65536 --control 2 --workers 3 --count 4
serve --active 1 --preview 0 --control 2 --workers 3 --count 4
serve --active 1 --preview 65536 --control 2 --workers 3 --count 4
serve --active 1 --control 0 --workers 3 --count 4
serve --active 1 --control 65536 --workers 3 --count 4
serve --active 1 --control 2 --workers 0 --count 4
serve --active 1 --control 2 --workers 8 --count 4
serve --active 1 --control 2 --workers 3 --count 0
serve --active 1 --control 2 --workers 3 --count 1000001
serve --active 1 --control 2 --workers 3 --count 4 --threads 0
serve --active 1 --control 2 --workers 3 --count 4 --threads 65
END
expect 2 /dev/null '?*' "$(printf '\377')" < /dev/null
expect 2 /dev/null '?*--seats*' replay --help < /dev/null
expect 2 /dev/null '?*--active*' serve --help < /dev/null

# The help says what a connection is that counts, who `quit` ends, and what each word takes.
for word in '' serve; do
    expect 2 /dev/null '*[Aa]ny connection counts*health check*quit ends the operators*not the workers*' $word --help < /dev/null
    expect 2 /dev/null '*--active*65535*--preview*65535*--control*65535*--workers*1 to 7*--threads*1 to 64*--count*1 to 1000000*' $word --help < /dev/null
done
expect 2 /dev/null '*1 to 8*4 where it isn*' replay --help < /dev/null

# The version.
sed -n 's/^const VERSION: &str = "\(.*\)";/bg_switch \1/p' crates/bg_command_line/src/command_line.rt > "$work/version"
expect 0 "$work/version" '' --version < /dev/null
expect_to /dev/full 1 /dev/null WriteFailed --version < /dev/null

# As many seats as the words ask for, and 4 where they ask for none: a request at each of nine places.
{
    echo '{"spec":{"strategy":{"blueGreen":{"activeService":"web"}}}}'
    printf -- '---\nopen v1 9001\navailable 1 1\n'
    seq -f 'enter %g active' 0 8
} > "$work/nine_requests"

# expect_seats SEATS WORD..: a replay with these words has so many seats.
expect_seats() {
    seats=$1
    shift
    {
        printf 'ok 0\nok 0\n'
        seq -f 'entered %g revision 1 port 9001' 1 "$seats"
        yes 'refused NoSuchSeat' | head -n "$((9 - seats))"
    } > "$work/nine_replies"
    expect 0 "$work/nine_replies" '' replay "$@" < "$work/nine_requests"
}

expect_seats 4
expect_seats 1 --seats 1
expect_seats 2 --seats 2
expect_seats 8 --seats=8

# Faults, and an input without end.
no_json='bg_switch: the strategy is no JSON:'
echo 'fault NotJson' > "$work/not_json"
expect 1 "$work/not_json" "$no_json EOF while parsing at line 1 column 0" check < /dev/null
expect 1 "$work/not_json" "$no_json EOF while parsing at line 1 column 0" replay < /dev/null
echo 'fault TooLarge' > "$work/too_large"
expect 1 "$work/too_large" '' check < /dev/zero
expect 1 "$work/too_large" '' replay < /dev/zero
{ cat examples/direct.json && printf -- '---\nreport\nreports\n'; } > "$work/unknown"
printf 'refused NotOpen\nfault UnknownWord\n' > "$work/unknown_replies"
expect 1 "$work/unknown_replies" '' replay < "$work/unknown"

# Where JSON breaks: the line, and the byte in it. Of bytes that are no text it is the first of those.
printf '{"spec": {\n  "replicas": 2,\n  strategy: {}\n}}\n' > "$work/broken"
expect 1 "$work/not_json" "$no_json invalid JSON at line 3 column 3" check < "$work/broken"
printf '{}\n\377' > "$work/broken"
expect 1 "$work/not_json" "$no_json invalid JSON at line 2 column 1" check < "$work/broken"
{ printf '{"spec"\n' && printf -- '---\nopen v1 9001\n'; } > "$work/broken"
expect 1 "$work/not_json" "$no_json EOF while parsing at line 2 column 0" replay < "$work/broken"

# A text that looks like YAML.
yaml="$no_json invalid JSON at line *
bg_switch: it looks like YAML: \`kubectl get rollout NAME -o json\` writes JSON"
for text in 'apiVersion: argoproj.io/v1alpha1\nkind: Rollout\n' '# a rollout\n\n  spec:\n' '---\nkind: Rollout\n'; do
    printf '%b' "$text" > "$work/yaml"
    expect 1 "$work/not_json" "$yaml" check < "$work/yaml"
done

# Keys that nobody knows, one edit away from one that is known. The settings are as without them.
sed 's/"blueGreen": {/&"autoPromotionEnable": false, "prevewService": "x", "activeServise": 1, "scaleDownDelay": 7, /' \
    examples/direct.json > "$work/misspelt"
misspelt='bg_switch: blueGreen has "activeServise", which is passed over: did you mean "activeService"?
bg_switch: blueGreen has "autoPromotionEnable", which is passed over: did you mean "autoPromotionEnabled"?
bg_switch: blueGreen has "prevewService", which is passed over: did you mean "previewService"?'
expect 0 examples/direct.settings "$misspelt" check < "$work/misspelt"
printf -- '---\n' | cat "$work/misspelt" - > "$work/misspelt_script"
expect 0 /dev/null "$misspelt" replay < "$work/misspelt_script"
# All keys of a blueGreen strategy are known.
sed 's/"blueGreen": {/&"antiAffinity": {}, "activeMetadata": {}, "previewMetadata": {}, "maxUnavailable": 1, "abortScaleDownDelaySeconds": 30, /' \
    examples/direct.json > "$work/known"
expect 0 examples/direct.settings '' check < "$work/known"

# Input that can't be read, as a folder can't, and output that takes nothing.
expect 1 /dev/null ReadFailed check < examples
expect 1 /dev/null ReadFailed replay < examples
expect_to /dev/full 1 /dev/null WriteFailed check < examples/direct.json
expect_to /dev/full 1 /dev/null WriteFailed check < /dev/null
expect_to /dev/full 1 /dev/null WriteFailed replay < examples/two_requests.txt

echo "whole_program: $passed passed, $failed failed"
[ "$failed" -eq 0 ]
