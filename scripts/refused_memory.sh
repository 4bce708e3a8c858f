#!/bin/sh
# Runs the built programs with each of their requests for memory refused, one in each run (scripts/refused_memory.py).
#
# `bg_tests_refused_memory` makes the calls of the libraries that take memory, and asks again where one was refused:
# whichever request is refused, it writes the very same, and each call that it makes was refused in some run. Of the rows
# that it plays, each request leaves and the seats are gathered while all requests are refused; so does the request of a
# client that it serves leave, which enters where the history has no room for it.
#
# `bg_switch` on each row of rows/ ends with `OutOfMemory` on standard error, or answers one line by `OutOfMemory` and
# all others as without that line, or does as ever, since std's `collect` goes on without the room that it asks for
# ahead. With words, e.g. rows/abort, only these rows are played, and no calls of the libraries.
set -eu
cd "$(dirname -- "$0")/.."
work=$(mktemp -d)
trap 'rm -rf "$work"' EXIT

# Builds scripts/refuse_memory.c, by the kit's clang where there is no compiler else.
build_refuser() {
    compiler=${CC:-cc}
    set -- -O2 -shared -fPIC -o "$work/refuse_memory.so" scripts/refuse_memory.c
    if command -v "$compiler" > /dev/null; then
        "$compiler" "$@"
    else
        toolchain=$(dirname -- "$(rt doc)")/toolchain
        "$toolchain/bin/clang" "$@" -nostdlib -fuse-ld=lld "$toolchain/lib/libc.so.6"
    fi
}

build_refuser
[ $# -gt 0 ] || scripts/build_if_stale.sh bg_tests_refused_memory
bin/bg_switch check < examples/direct.json > /dev/null
python3 -B scripts/refused_memory.py "$work/refuse_memory.so" "$@"
