#!/usr/bin/env bash
# Builds the static library unless SERPENTGLEAM_LIBRARY names one, and steps through its calls instruction by instruction:
# which of two numbers is the larger must not change the steps. tests/same_steps/main.c says more.
set -eu
cd "$(dirname "$0")/.."
bash library/prove.sh
archive=${SERPENTGLEAM_LIBRARY:-target/staticlib/libserpentgleam.a}
# Without -pie addresses are those that nm and objdump print; with -z now no call is resolved while it is stepped through.
gcc -std=c11 -O2 -Wall -Wextra -Wpedantic -Werror -Iinclude -no-pie -Wl,-z,now,--wrap=memset \
    -o target/same_steps tests/same_steps/*.c "$archive"
target/same_steps
