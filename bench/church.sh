#!/usr/bin/env bash
# Times of reductions in the bank, by the rows of crates/lp_rows/src/term_timed.rt, which `rt test` builds:
#   - twenty products of two Church numerals of 40, normalised: 81 contractions each, and the contractions a second;
#   - head reduction of a spine of 10,000 and of 100,000 arguments, one contraction each: ten times the time, so it is linear;
#   - 100,000 abstractions, of which the beta-eta normal form is the term itself.
# Run it from any folder: bash bench/church.sh. Each is the best of five runs, less the time of a run that does nothing.
root=$(cd "$(dirname "$0")/.." && pwd)
tests="$root/crates/lp_rows/out/lp_rows_tests"
[ -x "$tests" ] || ( cd "$root/crates/lp_rows" && rt test ) || exit 1

# the best of five runs, in microseconds
best() {
    local least=
    for _ in 1 2 3 4 5; do
        local start end
        start=$(date +%s%N)
        "$tests" "term_timed::$1" > /dev/null || exit 1
        end=$(date +%s%N)
        local took=$(((end - start) / 1000))
        [ -z "$least" ] || [ "$took" -lt "$least" ] && least=$took
    done
    echo "$least"
}

nothing=$(best a_product_of_1_and_1) || exit 1
for row in 'twenty_products_of_40_and_40 1620' 'a_spine_of_10000 10000' 'a_spine_of_100000 100000' 'abstractions_100000 0'; do
    set -- $row
    took=$(best "$1") || exit 1
    took=$((took - nothing))
    [ "$took" -gt 0 ] || took=1
    awk -v name="$1" -v took="$took" -v steps="$2" 'BEGIN {
        printf "%s: %.3f s", name, took / 1000000
        if (steps > 0) printf ", %d contractions a second", steps * 1000000 / took
        printf "\n"
    }'
done
