#!/bin/sh
# Times the reading of tokens next to the same algorithm written manually. README.md says more.
. "$(dirname "$0")/prologue.sh"
find_kit

copy_crates vp8_tables bool_coder token_parser
echo 'token_times staticlib: bool_coder token_parser' >> "$room/crates.txt"
mkdir -p "$room/crates/token_times/src"
cat > "$room/crates/token_times/src/lib.rt" <<'END'
#![tactic(auto)]

use bool_coder::Decoder;
use token_parser::{Rows, Tokens, read_macroblock};

fn mixed(mut sum: u32, tokens: &Tokens) -> u32 {
    for (end, block) in tokens.ends.iter().zip(&tokens.coefficients) {
        let sizes = (block[0].unsigned_abs() as u32).wrapping_add(block[4].unsigned_abs() as u32);
        sum = sum.wrapping_mul(31).wrapping_add(sizes).wrapping_add(*end as u32);
    }
    sum
}

#[unsafe(no_mangle)]
pub extern "C" fn proved_tokens(bytes: &[u8], probs: &[u8], macroblocks: u32) -> u32 {
    let mut probabilities = [128; 1056];
    if probs.len() == 1056 {
        probabilities.copy_from_slice(probs);
    }
    let rows = Rows::of(&probabilities);
    let mut decoder = Decoder::new(bytes);
    let mut tokens = Tokens::new();
    let mut sum = 0;
    for n in 0..macroblocks {
        read_macroblock(&mut decoder, &rows, n % 3 > 0, &mut tokens);
        sum = mixed(sum, &tokens);
        tokens.clear();
    }
    sum
}
END
(cd "$room/crates/token_times" && rt lib --jobs 1 < /dev/null) > "$room/build.log" 2>&1 || { tail -n 20 "$room/build.log"; exit 1; }
rustc -O --edition 2024 -C target-cpu=x86-64-v2 -o "$room/tokens" "$here/tokens.rs" \
    -L "$room/crates/token_times/out" -l static=token_times -L "$kit/c" -l static=libc_c
"$room/tokens" "$@"
