#!/bin/sh
# Times inter prediction next to libvpx's. README.md says more.
. "$(dirname "$0")/prologue.sh"
find_kit
find_libvpx

mkdir -p "$room/crates/inter_times/src" "$room/crates/block_times/src"
copy_crates vp8_tables pixel_planes inter_predict
echo 'inter_times staticlib: inter_predict' >> "$room/crates.txt"
echo 'block_times: pixel_planes inter_predict' >> "$room/crates.txt"
# A plane takes memory, which an exported function has none of: what `block` makes of a window is
# timed here, and `block` itself in a program.
sed -i 's/^mod rows;/pub mod rows;/; s/^mod samples;/pub mod samples;/; s/^mod strips;/pub mod strips;/; s/^mod taps;/pub mod taps;/' "$room/crates/inter_predict/src/lib.rt"
cat > "$room/crates/inter_times/src/lib.rt" <<'END'
#![tactic(auto)]

use inter_predict::Kind;
use inter_predict::rows::Strip;
use inter_predict::strips::strip;
use inter_predict::taps::{Filters, Taps};

#[unsafe(no_mangle)]
pub extern "C" fn proved_predict(
    is_bilinear: u32,
    side: u32,
    right: u32,
    below: u32,
    samples: &[u8; 672],
    stride: usize,
    out: &mut [u8; 256],
) {
    if stride < 21 || stride > 32 {
        return;
    }
    let kind = match is_bilinear {
        0 => Kind::SixTap,
        _ => Kind::Bilinear,
    };
    let across = Taps::of(kind, (right % 8) as usize);
    let down = Taps::of(kind, (below % 8) as usize);
    let filters = Filters { across, down };
    match side {
        16 => {
            let block = Strip {
                first: 0,
                height: 16,
                stride: 16,
            };
            strip::<16>(samples, stride, filters, block, out);
        }
        8 => {
            let block = Strip {
                first: 0,
                height: 8,
                stride: 8,
            };
            strip::<8>(samples, stride, filters, block, out);
        }
        _ => {
            let block = Strip {
                first: 0,
                height: 4,
                stride: 4,
            };
            strip::<4>(samples, stride, filters, block, out);
        }
    }
}
END
cp "$here/inter.rt.txt" "$room/crates/block_times/src/main.rt"
for level in v2 v3; do
    echo "x86-64-$level"
    (cd "$room/crates/inter_times" && rt lib --jobs 1 --cpu "x86-64-$level" < /dev/null) > "$room/build.log" 2>&1 || { tail -n 20 "$room/build.log"; exit 1; }
    rustc -O --edition 2024 -C "target-cpu=x86-64-$level" -o "$room/inter" "$here/inter.rs" \
        -L "$room/crates/inter_times/out" -l static=inter_times -L "$kit/c" -l static=libc_c \
        -L "$(dirname "$vpx")" -l static=vpx -l m
    "$room/inter"
done
echo "block itself, x86-64-v2"
(cd "$room/crates/block_times" && rt run --jobs 1 < /dev/null) > "$room/build.log" 2>&1 || { tail -n 20 "$room/build.log"; exit 1; }
"$room/crates/block_times/out/block_times"
