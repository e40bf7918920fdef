#!/bin/sh
# Times the prediction of whole blocks next to libvpx's. README.md says more.
. "$(dirname "$0")/prologue.sh"
find_kit
find_libvpx

mkdir -p "$room/crates/intra_times/src"
copy_crates vp8_tables intra_predict
echo 'intra_times staticlib: intra_predict' >> "$room/crates.txt"
cat > "$room/crates/intra_times/src/lib.rt" <<'END'
#![tactic(auto)]

use intra_predict::{BlockSize, WholeMode, whole};

fn mode_of(mode: u32) -> WholeMode {
    match mode {
        0 => WholeMode::Dc,
        1 => WholeMode::V,
        2 => WholeMode::H,
        _ => WholeMode::Tm,
    }
}

#[unsafe(no_mangle)]
pub extern "C" fn predict_luma(
    mode: u32,
    above: &[u8; 16],
    left: &[u8; 16],
    corner: u8,
    out: &mut [u8; 256],
) {
    whole(mode_of(mode), BlockSize::Sixteen, Some(above), Some(left), corner, out, 16);
}

#[unsafe(no_mangle)]
pub extern "C" fn predict_chroma(
    mode: u32,
    above: &[u8; 8],
    left: &[u8; 8],
    corner: u8,
    out: &mut [u8; 64],
) {
    whole(mode_of(mode), BlockSize::Eight, Some(above), Some(left), corner, out, 8);
}
END
(cd "$room/crates/intra_times" && rt lib --jobs 1 < /dev/null) > "$room/build.log" 2>&1 || { tail -n 20 "$room/build.log"; exit 1; }
rustc -O --edition 2024 -C target-cpu=x86-64-v2 -o "$room/intra" "$here/intra.rs" \
    -L "$room/crates/intra_times/out" -l static=intra_times -L "$kit/c" -l static=libc_c \
    -L "$(dirname "$vpx")" -l static=vpx -l m
"$room/intra"
