#!/usr/bin/env bash
# Makes the reference's vectors again and compares them, byte for byte, with those that stand in crates/margin_batch.
# Needs cargo. Exit status 1 where there is a difference.
set -eu
cd "$(dirname "$0")/.."
made=$(mktemp -d)
trap 'rm -r "$made"' EXIT
cargo run --release --quiet --bin make_vectors -- "$made" > "$made/report"
for part in stdin stdout; do
    cmp "$made/$part" "crates/margin_batch/$part"
done
echo "vectors: $(sed -n 's/ accounts, .*//p' "$made/report") accounts, no difference"
