#!/bin/sh
# Times the decoding of whole clips next to vpxdec and ffmpeg, and profiles it: [TURNS=N] [MINUTES=N] bench/decode.sh [CLIP ..].
# MINUTES=10 takes as many turns as fit. README.md says more.
. "$(dirname "$0")/prologue.sh"
need vpxenc vpxdec ffmpeg /usr/bin/time

# Makes a clip of this name from an ffmpeg source, this number of frames and kilobits a second, with these further options of
# vpxenc, if that was not done before.
make_clip() {
    name=$1 source=$2 frames=$3 rate=$4
    shift 4
    [ ! -f "$clips/$name.ivf" ] || return 0
    echo "making $clips/$name.ivf"
    mkdir -p "$clips"
    ffmpeg -v error -f lavfi -i "$source,format=yuv420p" -frames:v "$frames" "$room/$name.y4m"
    vpxenc --codec=vp8 --ivf --good --cpu-used=4 --target-bitrate="$rate" "$@" -o "$room/$name.ivf" "$room/$name.y4m" \
        > "$room/vpxenc.log" 2>&1 || { tail -n 5 "$room/vpxenc.log"; exit 1; }
    mv "$room/$name.ivf" "$clips/$name.ivf"
    rm "$room/$name.y4m"
}
zoom() {
    echo "mandelbrot=size=$1:rate=30:start_scale=1.5:end_scale=0.01:end_pts=400,noise=alls=6:allf=t"
}
make_clip zoom-360p "$(zoom 640x360)" 300 1000
make_clip zoom-720p "$(zoom 1280x720)" 300 2500
make_clip zoom-1080p "$(zoom 1920x1080)" 300 5000
make_clip flat-720p "testsrc=size=1280x720:rate=30" 300 800
make_clip noise-360p "testsrc2=size=640x360:rate=30,noise=alls=40:allf=t" 300 8000
make_clip keys-360p "$(zoom 640x360)" 300 6000 --kf-max-dist=0
make_clip version-3-360p "$(zoom 640x360)" 300 1000 --profile=3
make_clip partitions-8-720p "$(zoom 1280x720)" 300 2500 --token-parts=3
[ $# -gt 0 ] || set -- zoom-360p zoom-720p zoom-1080p flat-720p noise-360p keys-360p version-3-360p partitions-8-720p

# For x86-64-v2, and for what build.py builds for on this machine, which comes last, so that bin/ has it. If WOKURETI_CPU names a
# processor, only for that one.
build
own=$(PYTHONPATH="$top" python3 -c 'import build; print(build.processor(""))')
levels=$own
[ -n "${WOKURETI_CPU:-}" ] || [ "$own" = x86-64-v2 ] || levels="x86-64-v2 $own"
for level in $levels; do
    "$top/build.py" --cpu "$level"
    cp "$top/bin/vp8serve" "$room/$level"
done
python3 "$here/decode.py" "$room" "$clips" "${TURNS:-15}" "${MINUTES:-}" "$levels" "$@"

command -v perf > /dev/null || exit 0
echo "$own, zoom-1080p, percent of the time by function"
python3 -c 'for n in range(300): print("frame", n)' > "$room/requests"
perf record -q -e cpu-clock -F 5000 -o "$room/perf" "$room/$own" "$clips/zoom-1080p.ivf" "$room/requests" - > /dev/null 2>&1
perf report -i "$room/perf" --stdio --percent-limit 1 2> /dev/null | grep -E '^ +[0-9]' || true
