#!/usr/bin/env bash
# Makes the reference's instalments again and compares them, byte for byte, with those that stand in tests/instalments.
# Needs cargo. Exit status 1 where there is a difference.
set -eu
cd "$(dirname "$0")/.."
made=$(mktemp -d)
trap 'rm -r "$made"' EXIT
cargo run --release --quiet --bin make_instalments -- "$made" > "$made/report"
for part in cases answers; do
    cmp "$made/$part" "tests/instalments/$part"
done
echo "instalments: $(sed -n 's/ calls, .*/ calls/p' "$made/report"), no difference"
