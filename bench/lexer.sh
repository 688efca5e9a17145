#!/usr/bin/env bash
# Times of the lexer alone on the four texts of texts.sh, and of making one of them without reading it (`fill`).
# Run it from any folder: bash bench/lexer.sh. It adds the five tests below to a copy of lp_lexer, builds them natively (about a
# minute), and runs each by itself. Seen on a shared machine of four processors: tokens 0.03 s, comment 0.01 s, string 0.01 s, brackets 0.09 s, fill 0.00 s.
root=$(cd "$(dirname "$0")/.." && pwd)
work=$(mktemp -d)
trap 'rm -rf "$work"' EXIT

mkdir "$work/crates"
cp -r "$root/crates/lp_base" "$root/crates/lp_lexer" "$work/crates/"
cp "$root/HANDLES" "$work/"
printf 'lp_base:\nlp_lexer: lp_base\n' > "$work/crates.txt"
tests=$work/crates/lp_lexer/src/tests.rt
printf '\n#[cfg(test)]\nmod tests;\n' >> "$work/crates/lp_lexer/src/lib.rt"

cat > "$tests" <<'TESTS'
use crate::tokens;
use std::alloc::Global;

fn filled(alloc: Global, before: &[u8], piece: &[u8], times: usize, after: &[u8]) -> Vec<u8> {
    let mut text = Vec::new(alloc);
    for b in before {
        let _ = text.push(*b);
    }
    for _ in 0..times {
        for b in piece {
            let _ = text.push(*b);
        }
    }
    for b in after {
        let _ = text.push(*b);
    }
    text
}

#[test]
fn speed_fill(rt: HostRuntime) {
    let text = filled(rt.alloc(), b"", b"kind k type. ", 80000, b"");
    assert!(rt; text.len() == 1040000, "bytes");
}
TESTS

# name, text before, piece, how often, text after, how many tokens
reads() {
    cat >> "$tests" <<TESTS

#[test]
fn speed_$1(rt: HostRuntime) {
    let text = filled(rt.alloc(), b"$2", b"$3", $4, b"$5");
    let Ok(found) = tokens(rt.alloc(), &text) else {
        assert!(rt; false, "refused");
        return;
    };
    assert!(rt; found.len() == $6, "tokens");
}
TESTS
}

reads tokens '' 'kind k type. ' 80000 '' 320000
reads comment '/*' '/**/' 262000 '*/' 0
reads string '\"' '\\n' 524000 '\".' 2
reads brackets '' '(' 1048000 '' 1048000

cd "$work/crates/lp_lexer" || exit 1
if ! rt test lp_lexer > "$work/log" 2>&1; then
    tail -n 20 "$work/log"
    exit 1
fi
for name in fill tokens comment string brackets; do
    echo "$name:"
    ( time -p out/lp_lexer_tests "tests::speed_$name" > /dev/null ) 2>&1 | grep real
done
