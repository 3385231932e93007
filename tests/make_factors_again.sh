#!/usr/bin/env bash
# Makes the reference's list of all factors again and compares it, byte for byte, with the one that stands in
# crates/factors_list. Needs cargo. Exit status 1 where there is a difference.
set -eu
cd "$(dirname "$0")/.."
made=$(mktemp)
trap 'rm "$made"' EXIT
cargo run --release --quiet --bin factors_list > "$made"
cmp "$made" crates/factors_list/stdout
echo "factors: $(wc -l < "$made") lines, no difference"
