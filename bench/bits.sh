#!/bin/sh
# Times reads of the bit decoder next to the same algorithm written manually. README.md says more.
. "$(dirname "$0")/prologue.sh"
find_kit

copy_crates bool_coder
echo 'bit_times staticlib: bool_coder' >> "$room/crates.txt"
mkdir -p "$room/crates/bit_times/src"
cat > "$room/crates/bit_times/src/lib.rt" <<'END'
#![tactic(auto)]

use bool_coder::Decoder;

#[unsafe(no_mangle)]
pub extern "C" fn decoder_ones(bytes: &[u8], probs: &[u8], rounds: u32) -> u32 {
    let mut decoder = Decoder::new(bytes);
    let mut ones: u32 = 0;
    for _round in 0..rounds {
        for prob in probs {
            ones = ones.wrapping_add(decoder.bit(*prob) as u32);
        }
    }
    ones
}
END
(cd "$room/crates/bit_times" && rt lib --jobs 1 < /dev/null) > "$room/build.log" 2>&1 || { tail -n 20 "$room/build.log"; exit 1; }
rustc -O --edition 2024 -C target-cpu=x86-64-v2 -o "$room/bits" "$here/bits.rs" \
    -L "$room/crates/bit_times/out" -l static=bit_times -L "$kit/c" -l static=libc_c
"$room/bits"
