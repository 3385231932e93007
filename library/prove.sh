#!/usr/bin/env bash
# Proves the library and writes its archive, target/staticlib/libserpentgleam.a, unless SERPENTGLEAM_LIBRARY names one.
set -eu
cd "$(dirname "$0")/.."
mkdir -p target/staticlib
if [ -z "${SERPENTGLEAM_LIBRARY:-}" ]; then
    (cd crates/serpentgleam && rt lib) > target/staticlib.log 2>&1 || { tail -n 20 target/staticlib.log; exit 1; }
    made=crates/serpentgleam/out/libserpentgleam.a
    cmp -s "$made" target/staticlib/libserpentgleam.a || cp "$made" target/staticlib/libserpentgleam.a
fi
