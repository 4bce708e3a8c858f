#!/bin/sh
# Judges the files that no proof reads: the types of the Python files (mypy), their faults (flake8, by .flake8) and their layout
# (black), the shell scripts (shellcheck), and the syntax of the scripts of the dashboard's page (node). Without one of these
# programs it fails. And it judges the layout of the Rattle sources (layout.py), and what stands twice in them, their specs and their
# proofs (copied_code.py).
set -eu
cd "$(dirname -- "$0")/.."
failed=0

# need PROGRAM..: fails, and names each of these programs that is not installed.
need() {
    for program in "$@"; do
        command -v "$program" > /dev/null || { echo "lint needs $program: apt-get install mypy flake8 black shellcheck nodejs" >&2; failed=1; }
    done
    [ "$failed" -eq 0 ] || exit 1
}

# shell_scripts: the files whose first line names a shell.
shell_scripts() {
    git grep -nIE '^#!.*[/ ](ba|da)?sh$' | sed -n 's/^\([^:]*\):1:.*/\1/p'
}

# has_syntax FILE: whether node accepts a file as a module. Of a file that it is given by name, node checks no module.
has_syntax() {
    node --input-type=module --check < "$1" || { echo "lint: the fault is in $1"; false; }
}

need mypy flake8 black shellcheck node
git ls-files '*.py' | MYPYPATH=lib:scripts xargs mypy --strict --cache-dir out/mypy || failed=1
git ls-files '*.py' | xargs flake8 || failed=1
git ls-files '*.py' | BLACK_CACHE_DIR=out/black xargs black --quiet --diff --check || failed=1
shell_scripts | xargs shellcheck || failed=1
for file in $(git ls-files '*.js'); do
    has_syntax "$file" || failed=1
done
for check in $(git ls-files scripts/layout.py scripts/copied_code.py); do
    "$check" || failed=1
done
exit "$failed"
