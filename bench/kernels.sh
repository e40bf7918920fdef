#!/bin/sh
# Times the inverse transforms next to libvpx's. README.md says more.
. "$(dirname "$0")/prologue.sh"
find_kit
find_libvpx

mkdir -p "$room/crates/transform_times/src"
copy_crates vp8_tables bool_coder frame_header transforms
echo 'transform_times staticlib: transforms' >> "$room/crates.txt"
cat > "$room/crates/transform_times/src/lib.rt" <<'END'
#![tactic(auto)]

use transforms::{dct_add, dct_add_first, dct_add_two, dequantise, wht};

#[unsafe(no_mangle)]
pub extern "C" fn proved_dct_add(coefficients: &[i16; 16], samples: &mut [u8; 64]) {
    dct_add(coefficients, samples, 16);
}

#[unsafe(no_mangle)]
pub extern "C" fn proved_dct_add_two(first: &[i16; 16], second: &[i16; 16], samples: &mut [u8; 64]) {
    dct_add_two(first, second, samples, 16);
}

#[unsafe(no_mangle)]
pub extern "C" fn proved_dct_add_first(first: i16, samples: &mut [u8; 64]) {
    dct_add_first(first, samples, 16);
}

#[unsafe(no_mangle)]
pub extern "C" fn proved_wht(coefficients: &[i16; 16], out: &mut [i16; 16]) {
    *out = wht(coefficients);
}

#[unsafe(no_mangle)]
pub extern "C" fn proved_dequantise(coefficients: &[i16; 16], dc: i16, ac: i16, out: &mut [i16; 16]) {
    *out = dequantise(coefficients, dc, ac);
}
END
for cpu in x86-64-v2 x86-64-v3; do
    (cd "$room/crates/transform_times" && rt lib --jobs 1 --cpu "$cpu" < /dev/null) > "$room/build.log" 2>&1 || { tail -n 20 "$room/build.log"; exit 1; }
    rustc -O --edition 2024 -C target-cpu="$cpu" -o "$room/kernels" "$here/kernels.rs" \
        -L "$room/crates/transform_times/out" -l static=transform_times -L "$kit/c" -l static=libc_c \
        -L "$(dirname "$vpx")" -l static=vpx -l m
    echo "$cpu"
    "$room/kernels"
done
