#!/usr/bin/env bash
# Builds the static library unless SERPENTGLEAM_LIBRARY names one, compiles the C clients with warnings as errors, runs
# them on the example accounts, on codes and days, on days of a series, on sales of a held row and on seeds of loads, and
# compares what they print with clients/expected.txt.
set -eu
cd "$(dirname "$0")/.."
bash library/prove.sh
archive=${SERPENTGLEAM_LIBRARY:-target/staticlib/libserpentgleam.a}
for client in limit_screen collateral_call series_factors end_of_day instalments load_account; do
    gcc -std=c11 -O2 -Wall -Wextra -Wpedantic -Werror -Iinclude -o "target/$client" "clients/$client.c" "$archive"
done
while read -r account row; do
    printf '%s %s: ' "$account" "$row"
    target/limit_screen "examples/$account" "$row" || true
done < clients/questions.txt > target/clients.out
for account in examples/*.account; do
    printf '%s\n' "${account#examples/}"
    target/collateral_call "$account" || true
done >> target/clients.out
while read -r code days; do
    printf '%s %s: ' "$code" "$days"
    target/series_factors "$code" "$days" || true
done < clients/factor_questions.txt >> target/clients.out
while read -r account series high low close; do
    printf '%s %s %s %s %s: ' "$account" "$series" "$high" "$low" "$close"
    target/end_of_day "examples/$account" "$series" "$high" "$low" "$close" || true
done < clients/day_questions.txt >> target/clients.out
for account in examples/*.account; do
    printf '%s in instalments\n' "${account#examples/}"
    target/instalments "$account" || true
done >> target/clients.out
while read -r account row sold; do
    printf '%s in instalments, %s %s\n' "$account" "$row" "$sold"
    target/instalments "examples/$account" "$row" "$sold" 2>&1 || true
done < clients/sale_questions.txt >> target/clients.out
while read -r seed positions; do
    printf 'load %s %s: ' "$seed" "$positions"
    target/load_account "$seed" "$positions" || true
done < clients/load_questions.txt >> target/clients.out
diff clients/expected.txt target/clients.out
echo "clients: $(wc -l < clients/expected.txt) lines as expected"
