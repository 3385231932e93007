#!/usr/bin/env bash
# Makes the shared object of the library's archive, for programs that load it such as the command and the module in
# python/: target/staticlib/libserpentgleam.so.1. The archive is the one that SERPENTGLEAM_LIBRARY names, or
# target/staticlib/libserpentgleam.a; where that is not there, library/prove.sh proves the library and writes it.
# Nothing is done where the shared object was made of an archive of the same bytes, whose sum stands beside it.
set -eu
cd "$(dirname "$0")/.."
archive=${SERPENTGLEAM_LIBRARY:-target/staticlib/libserpentgleam.a}
made=target/staticlib/libserpentgleam.so.1
[ -e "$archive" ] || bash library/prove.sh
mkdir -p target/staticlib
sum=$(sha256sum < "$archive")
if [ ! -e "$made" ] || [ ! -e "$made.archive_sum" ] || [ "$(cat "$made.archive_sum")" != "$sum" ]; then
    # Under another name first: programs that run keep the shared object that they have loaded.
    gcc -shared -o "$made.part" -Wl,-soname,libserpentgleam.so.1 -Wl,--whole-archive "$archive" -Wl,--no-whole-archive
    rm -f "$made.archive_sum"
    mv "$made.part" "$made"
    printf '%s\n' "$sum" > "$made.archive_sum"
fi
echo "$made"
