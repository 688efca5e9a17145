#!/usr/bin/env bash
# Times of the store, and of reduction on it beside reduction in the bank:
#   - a hundred thousand and a million new variables, each bound, and one undo: ten times the time, so both are linear in the trail;
#   - twenty products of two Church numerals of 60, read back from the store, and the same by lp_term's `beta_normal`.
# The rows are those of the files *_timed.rt in crates/lp_rows/src, which `rt test` builds. Run it from any folder: bash bench/store.sh.
# Each is the best of five runs in processor time, less that of a run that does next to nothing. Seen on a shared machine of four
# processors: 0.008 s and 0.076 s for the bindings; 0.036 s for the products on the store and 0.078 s in the bank. That is the factor of
# the contractions: the redex `n f` of the product `\f m (n f)` is one cell to its 60 uses, so that the store makes 62 contractions where
# the bank makes 121.
root=$(cd "$(dirname "$0")/.." && pwd)
tests="$root/crates/lp_rows/out/lp_rows_tests"
[ -x "$tests" ] || ( cd "$root/crates/lp_rows" && rt test ) || exit 1

# the best of five runs of a row, in milliseconds of processor time
TIMEFORMAT='%U %S'
best() {
    local run
    for run in 1 2 3 4 5; do
        { time "$tests" "$1" > /dev/null 2>&1 || exit 1; } 2>&1
    done | awk '{ took = ($1 + $2) * 1000 } NR == 1 || took < least { least = took } END { print least }'
}

# name, row that does next to nothing, row
row() {
    awk -v name="$1" -v nothing="$(best "$2")" -v took="$(best "$3")" 'BEGIN { printf "%s: %.3f s\n", name, (took - nothing) / 1000 }'
}

row 'a hundred thousand bindings and an undo' store_timed::a_binding_and_undo store_timed::bindings_100000_and_undo
row 'a million bindings and an undo' store_timed::a_binding_and_undo store_timed::bindings_1000000_and_undo
row 'twenty products of 60 and 60 on the store' susp_timed::a_product_of_1_and_1 susp_timed::twenty_products_of_60_and_60
row 'twenty products of 60 and 60 in the bank' term_timed::a_product_of_1_and_1 term_timed::twenty_products_of_60_and_60
