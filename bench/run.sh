#!/bin/sh
# run.sh NAME USES: proves, builds and runs the program in bench/NAME, and prints what it prints.
#
# USES are the libraries that it names. It stands in a folder of its own, over copies of them and of what they stand on. Its
# files end in .txt, since the gate wants each source in a listed crate. It needs the kit's `rt` alone.
set -eu
top=$(CDPATH='' cd -- "$(dirname -- "$0")/.." && pwd)
name=$1
work=$(mktemp -d)
trap 'rm -rf "$work"' EXIT
bench=$work/crates/${name}_bench
mkdir -p "$bench/src"
cp "$top/HANDLES" "$work/"
# Gives these crates and those of crates.txt that they stand on.
with_those_below() {
    awk -v names="$1" '
        /^[a-z]/ { name = $1; sub(":.*", "", name); uses[name] = $0; sub("[^:]*:", "", uses[name]) }
        function take(names,   list, count, i) {
            count = split(names, list, " ")
            for (i = 1; i <= count; i++)
                if (list[i] in uses && !(list[i] in taken)) { taken[list[i]]; print list[i]; take(uses[list[i]]) }
        }
        END { take(names) }' "$top/crates.txt"
}

for crate in $(with_those_below "$2"); do
    cp -R "$top/crates/$crate" "$work/crates/"
    grep "^$crate\( [a-z_=0-9]*\)*:" "$top/crates.txt" >> "$work/crates.txt"
done
echo "${name}_bench: $2" >> "$work/crates.txt"
cp "$top/bench/$name/main.rt.txt" "$bench/src/main.rt"
for proof in "$top/bench/$name"/*_Invariants.antt.txt; do
    if [ -e "$proof" ]; then
        function=$(basename "$proof" _Invariants.antt.txt)
        mkdir -p "$bench/proofs/$function"
        cp "$proof" "$bench/proofs/$function/Invariants.antt"
    fi
done
cd "$bench"
rt run 2> "$work/notes" || { cat "$work/notes" >&2; exit 1; }
