#!/bin/sh
# Releases a revision by the plan that a controller runs: names it last in the plan, promotes it at its pause, and ends once it
# is stable: release.sh CONTROL_PORT PLAN NAME PORT..
# The status is not 0, and standard error says why, where it was aborted, another one took its place, or time has passed.
set -eu
bgctl="$(dirname -- "$0")/../../bin/bgctl"
[ -x "$bgctl" ] || bgctl=bgctl # from the package
export BG_CONTROL="$1" BG_PLAN="$2"
shift 2
"$bgctl" deploy "$@"
# without a pause, or in a second run, there is nothing to promote
"$bgctl" wait phase=paused newest="$1" --timeout 600 && "$bgctl" promote "$1"
"$bgctl" wait stable="$1" --timeout 600
