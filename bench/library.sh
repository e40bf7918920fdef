#!/bin/sh
# Times the library: calls from C, from Python and over the program's pipes, and frames in three orders next to PyAV and OpenCV. library.sh [CLIP ..]
. "$(dirname "$0")/prologue.sh"
need gcc ffmpeg /usr/bin/python3
library=$top/bin/libwokureti.so.0
[ -f "$library" ] || { echo "$library is missing: ./build.py --library makes it" >&2; exit 1; }

# A clip of 300 frames with a key frame every 30, made once: virtual.sh has the same.
clip() {
    mkdir -p "$clips"
    [ -e "$clips/virtual-$1.ivf" ] || ffmpeg -nostdin -v error -y -f lavfi -i "mandelbrot=size=$1:rate=30,noise=alls=8:allf=t" -frames:v 300 \
        -c:v libvpx -deadline realtime -cpu-used 8 -b:v "$2" -g 30 -auto-alt-ref 0 "$clips/virtual-$1.ivf"
    echo "$clips/virtual-$1.ivf"
}
[ $# -gt 0 ] || set -- "$(clip 640x360 1500k)" "$(clip 1920x1080 6M)"

PATH=$top/bin:$PATH
export LIBWOKURETI="$library" PYTHONDONTWRITEBYTECODE=1
gcc -std=gnu11 -O2 -Wall -I "$top/clients/c/include" -o "$room/library" "$here/library.c" "$library" -Wl,-rpath,"$top/bin"
for path; do
    echo "$path"
    "$room/library" "$path" "${TURNS:-5}"
    /usr/bin/python3 "$here/library.py" "$path" "${TURNS:-5}"
    if /usr/bin/python3 -c 'import av, cv2' 2> /dev/null; then
        /usr/bin/python3 "$here/access.py" "$path" 60 "${TURNS:-5}"
    else
        echo "not next to PyAV and OpenCV: python3-av and python3-opencv are missing"
    fi
done
