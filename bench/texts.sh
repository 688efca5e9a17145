#!/usr/bin/env bash
# Times of reading four texts of nearly 1 MiB: tokens, one comment, one string of escapes, a million open brackets.
# Run it from any folder: bash bench/texts.sh. Each text is the module of its own folder, asked for `true`; the comment alone is a module, each other
# one is refused with its place. Each should take well under a second.
root=$(cd "$(dirname "$0")/.." && pwd)
work=$(mktemp -d)
trap 'rm -rf "$work"' EXIT

# name, text before, piece, how often, text after
text() {
    mkdir "$work/$1"
    echo 'sig m.' > "$work/$1/m.sig"
    awk -v before="$2" -v piece="$3" -v times="$4" -v after="$5" 'BEGIN {
        printf "module m.\n%s", before
        for (i = 0; i < times; i++) printf "%s", piece
        printf "%s\n", after
    }' > "$work/$1/m.mod"
}

text tokens '' 'kind k type. ' 80000 ''
text comment '/*' '/**/' 262000 '*/'
text string '"' '\\n' 524000 '".'
text brackets '' '(' 1048000 ''

for name in tokens comment string brackets; do
    cd "$work/$name" || exit 1
    echo "$name: $(wc -c < m.mod) bytes"
    ( time -p "$root/lprolog" solve m true ) 2>&1 | grep -v '^user\|^sys'
done
