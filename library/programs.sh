#!/usr/bin/env bash
# Proves the programs that are named, or all, and puts each into target/bin: `library/programs.sh [NAME ..]`. rt builds a
# program to run it, so each is run once, on the file stdin beside its src/.
set -eu
cd "$(dirname "$0")/.."
mkdir -p target/bin
if [ $# = 0 ]; then
    set -- crates/*/src/main.rt
    set -- "${@%/src/main.rt}"
    set -- "${@#crates/}"
fi
for program in "$@"; do
    given=crates/$program/stdin
    [ -e "$given" ] || given=/dev/null
    (cd "crates/$program" && rt run) < "$given" > "target/$program.out" 2> "target/$program.log" ||
        { tail -n 20 "target/$program.log"; exit 1; }
    made=crates/$program/out/$program
    cmp -s "$made" "target/bin/$program" || cp "$made" "target/bin/$program"
done
