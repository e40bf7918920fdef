#!/bin/sh
# Times the loop filter next to libvpx's. README.md says more.
. "$(dirname "$0")/prologue.sh"
find_kit
find_libvpx

mkdir -p "$room/crates/edge_times/src" "$room/crates/filter_times/src"
copy_crates vp8_tables bool_coder intra_predict frame_header mode_parser pixel_planes loop_filter
echo 'edge_times staticlib: loop_filter' >> "$room/crates.txt"
echo 'filter_times: vp8_tables bool_coder frame_header mode_parser pixel_planes loop_filter' >> "$room/crates.txt"
sed -i -E 's/^mod (columns_inner|edge_limits|edges|joined_edges);/pub mod \1;/' "$room/crates/loop_filter/src/lib.rt"

# One exported function for each kind of edge: its name and its call.
exported() {
    cat << END

#[unsafe(no_mangle)]
pub extern "C" fn $1(
    edge: u8,
    interior: u8,
    variance: u8,
    y: &mut [u8; 65536],
    u: &mut [u8; 65536],
    v: &mut [u8; 65536],
    start: usize,
    stride: usize,
) {
    if edge < 255 && stride >= 16 && stride <= 256 && start <= 61424 {
        let limits = EdgeLimits { edge, interior, variance };
        let at = Starts { luma: start, luma_stride: stride, chroma: start, chroma_stride: stride };
        $2;
    }
}
END
}

{
    cat << 'END'
#![tactic(auto)]

use loop_filter::columns_inner::filter_inner_columns;
use loop_filter::edge_limits::{EdgeFilter, EdgeLimits};
use loop_filter::edges::{filter_columns, filter_rows};
use loop_filter::joined_edges::{Starts, filter_joined_columns, filter_joined_rows};
END
    for filter in Inner Simple; do
        name=$(echo "$filter" | tr IS is)
        exported "proved_${name}_rows" "filter_rows(EdgeFilter::$filter, limits, y, start, stride)"
    done
    exported proved_simple_columns "filter_columns(EdgeFilter::Simple, limits, y, start, stride)"
    exported proved_inner_columns "filter_inner_columns(limits, y, u, v, at)"
    for filter in Macroblock Inner; do
        name=$(echo "$filter" | tr MI mi)
        exported "proved_joined_${name}_rows" "filter_joined_rows(EdgeFilter::$filter, limits, y, u, v, at)"
        exported "proved_joined_${name}_columns" "filter_joined_columns(EdgeFilter::$filter, limits, y, u, v, at)"
    done
} > "$room/crates/edge_times/src/lib.rt"
cp "$here/filters.rt.txt" "$room/crates/filter_times/src/main.rt"

for level in v2 v3; do
    echo "x86-64-$level"
    (cd "$room/crates/edge_times" && rt lib --jobs 1 --cpu "x86-64-$level" < /dev/null) > "$room/build.log" 2>&1 || { tail -n 20 "$room/build.log"; exit 1; }
    rustc -O --edition 2024 -C "target-cpu=x86-64-$level" -o "$room/filters" "$here/filters.rs" \
        -L "$room/crates/edge_times/out" -l static=edge_times -L "$kit/c" -l static=libc_c \
        -L "$(dirname "$vpx")" -l static=vpx -l m
    (cd "$room/crates/filter_times" && rt run --jobs 1 --cpu "x86-64-$level" < /dev/null) > "$room/build.log" 2>&1 || { tail -n 20 "$room/build.log"; exit 1; }
    "$room/filters"
    # A plane takes memory, which an exported function has none of: `frame` is timed in a program of its own, in turn
    # with libvpx's order of calls.
    for _ in 1 2 3 4 5; do
        "$room/crates/filter_times/out/filter_times"
        "$room/filters" frame
    done > "$room/frames"
    [ "$(awk '{ print $NF }' "$room/frames" | sort -u | wc -l)" = 1 ] || { echo "the frames differ"; cat "$room/frames"; exit 1; }
    awk '{ if (!($1 in best) || $2 < best[$1]) best[$1] = $2 }
        END {
            printf "whole frame of 1920x1088, us: proved %d  sse2 %d (%.2f)  c %d (%.2f)\n", best["proved"], best["sse2"],
                best["proved"] / best["sse2"], best["c"], best["proved"] / best["c"]
        }' "$room/frames"
done
