#!/usr/bin/env bash
# Builds the static library unless SERPENTGLEAM_LIBRARY names one, hands it the calls in tests/instalments/cases and
# compares its answers and lists with tests/instalments/answers. tests/instalments/main.c says more.
set -eu
cd "$(dirname "$0")/.."
bash library/prove.sh
archive=${SERPENTGLEAM_LIBRARY:-target/staticlib/libserpentgleam.a}
gcc -std=c99 -O2 -Wall -Wextra -Wpedantic -Werror -Iinclude -o target/instalment_calls tests/instalments/main.c "$archive"
target/instalment_calls < tests/instalments/cases > target/instalment_calls.answers
cmp target/instalment_calls.answers tests/instalments/answers
echo "instalments: $(grep -cE '^(made|amount|count|refused) ' target/instalment_calls.answers) calls of the library, no difference"
