#!/bin/sh
# Runs the plan beside this script: two endpoints for each revision, the switch, and the controller, until ctrl-C.
# Watch it from another terminal with `bin/bgctl watch --control 18082`. From the package, it runs a copy of the plan.
set -eu
cd "$(dirname -- "$0")"
pages=$(mktemp -d)
tools=$(cd ../.. && pwd)/bin
if [ -d "$tools" ]; then
    program=$tools/bg_switch bgctl=$tools/bgctl
    # What a run before this one remembers.
    rm -f plan.json.state*
else
    program=bg_switch bgctl=bgctl
    cp plan.json rollout.json smoke_test.sh "$pages"
    cd "$pages"
    echo "the plan is $pages/plan.json"
fi
started=
end() {
    # shellcheck disable=SC2086  # the numbers of the processes
    kill $started 2> /dev/null || true
    rm -rf "$pages"
}
trap end EXIT
trap 'exit 0' INT TERM

for revision in 1 2; do
    mkdir "$pages/v$revision"
    echo "media-v$revision" > "$pages/v$revision/index.html"
    for port in "19${revision}01" "19${revision}02"; do
        python3 -m http.server "$port" --bind 127.0.0.1 --directory "$pages/v$revision" > /dev/null 2>&1 &
        started="$started $!"
    done
done
# Builds the program where it is stale.
"$program" check < rollout.json > /dev/null
"$bgctl" check plan.json --rollout rollout.json
"$program" serve --active 18080 --preview 18081 --control 18082 --workers 4 --forever < rollout.json &
started="$started $!"
"$bgctl" controller plan.json &
started="$started $!"
wait $!
