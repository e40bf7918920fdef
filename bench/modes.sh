#!/bin/sh
# Times the reading of a key frame's modes next to plain reads of as many bits. README.md says more.
. "$(dirname "$0")/prologue.sh"

checksum=$(python3 "$here/modes.py" "$@" "$room/input")
copy_crates vp8_tables bool_coder intra_predict frame_header mode_parser pixel_planes stream_files
mkdir -p "$room/crates/mode_times/src"
echo 'mode_times: vp8_tables bool_coder intra_predict frame_header mode_parser stream_files' >> "$room/crates.txt"
cp "$here/modes.rt.txt" "$room/crates/mode_times/src/main.rt"
(cd "$room/crates/mode_times" && rt run --jobs 1 < "$room/input") > "$room/build.log" 2>&1 || { tail -n 20 "$room/build.log"; exit 1; }
"$room/crates/mode_times/out/mode_times" < "$room/input" | tee "$room/times"
grep -q "checksum $checksum\$" "$room/times" || { echo "a plain reader finds other modes"; exit 1; }
