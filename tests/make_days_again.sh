#!/usr/bin/env bash
# Makes the reference's days again and compares them, byte for byte, with those that stand in crates/day_batch. Needs
# cargo. Exit status 1 where there is a difference.
set -eu
cd "$(dirname "$0")/.."
made=$(mktemp -d)
trap 'rm -r "$made"' EXIT
cargo run --release --quiet --bin make_days -- "$made" > "$made/report"
for part in stdin stdout; do
    cmp "$made/$part" "crates/day_batch/$part"
done
echo "days: $(sed -n 's/ cases, .*//p' "$made/report") cases, no difference"
