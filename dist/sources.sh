#!/usr/bin/env bash
# What the program is built from. `lprolog` and `build` read this file.

# The checksum of the sources that the program is built from, in the checkout $1: its crates' code without tests, and which crates stand on
# which.
sources_sum() {
    (
        cd "$1" || exit 1
        find crates.txt crates -path crates/lp_rows -prune -o -path crates/lp_code_rows -prune -o -path crates/lp_solve_rows -prune -o -path crates/lp_given -prune -o -path 'crates/*/out' -prune -o -name tests -prune -o -name tests.rt -prune \
            -o \( -path '*/src/*.rt' -o -name crates.txt \) -type f -print0 |
            LC_ALL=C sort -z | xargs -0 sha256sum | sha256sum | cut -d ' ' -f 1
    )
}

# Whether the program of dist/ is of the sources of the checkout $1, and runs here.
is_shipped() {
    [ -x "$1/dist/lprolog" ] && [ -f "$1/dist/built-from" ] && [ "$(uname -s) $(uname -m)" = 'Linux x86_64' ] &&
        [ "$(sed -n 's/^sources //p' "$1/dist/built-from")" = "$(sources_sum "$1")" ]
}

# Whether the checkout $1 has a program of its own that is newer than its sources.
is_built() {
    local program=$1/crates/lp_cli/out/lp_cli
    [ -x "$program" ] && [ -z "$(find "$1/crates" -name out -prune -o -path '*/src/*.rt' -newer "$program" -print -quit)" ]
}
