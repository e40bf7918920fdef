#!/bin/sh
# Times a fade next to memcpy. README.md says more.
. "$(dirname "$0")/prologue.sh"
find_kit

copy_crates text_words pixel_planes script_nodes
echo 'fade_times staticlib: script_nodes' >> "$room/crates.txt"
mkdir -p "$room/crates/fade_times/src"
sed -i 's/^pub use pictures::apply;/&\npub use rows::fade_row;/' "$room/crates/script_nodes/src/lib.rt"
sed -i 's/pub(crate) fn fade_row/pub fn fade_row/' "$room/crates/script_nodes/src/rows.rt"
cat > "$room/crates/fade_times/src/lib.rt" <<'END'
#![tactic(auto)]

use script_nodes::fade_row;

#[unsafe(no_mangle)]
pub extern "C" fn fade(row: &[u8; 1920], weight: u16, dark: u8, out: &mut [u8; 1920]) {
    if weight <= 256 {
        fade_row(row, weight, dark, out);
    }
}
END
(cd "$room/crates/fade_times" && rt lib --jobs 1 < /dev/null) > "$room/build.log" 2>&1 || { tail -n 20 "$room/build.log"; exit 1; }
rustc -O --edition 2024 -C target-cpu=x86-64-v2 -o "$room/fade" "$here/fade.rs" \
    -L "$room/crates/fade_times/out" -l static=fade_times -L "$kit/c" -l static=libc_c
"$room/fade"
