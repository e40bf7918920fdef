#!/bin/sh
# Instructions of decoding by stage, next to libvpx's: [VPXDEC=PATH] bench/stages.sh [CLIP [FRAMES]]. VPXDEC is a vpxdec whose libvpx has
# symbols, which Debian's has not: README.md says how to build one. FUNCTIONS=1 prints the functions of each stage.
. "$(dirname "$0")/prologue.sh"
need valgrind nm
build
clip=${1:-$clips/zoom-360p.ivf}
[ -f "$clip" ] || { echo "$clip is missing: bench/decode.sh makes the clips" >&2; exit 1; }
python3 "$here/stages.py" "$room" "$clip" "${2:-60}" "$program" ${VPXDEC:+"$VPXDEC"}
