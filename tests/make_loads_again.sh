#!/usr/bin/env bash
# Makes the reference's list of loads again and compares it, byte for byte, with the one that stands in crates/load_list.
# Needs cargo. Exit status 1 where there is a difference.
set -eu
cd "$(dirname "$0")/.."
made=$(mktemp)
trap 'rm "$made"' EXIT
cargo run --release --quiet --bin load_list > "$made"
cmp "$made" crates/load_list/stdout
echo "loads: $(LC_ALL=C grep -acE '^[0-9]+ [0-9]+ [0-9]+ (made [0-9]+|refused [0-9]+ [0-9]+)$' "$made") cases, no difference"
