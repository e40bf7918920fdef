# Read by the scripts of this folder as their first command: . "$(dirname "$0")/prologue.sh"
# It stops them at the first error, and sets:
#   here     this folder
#   top      the repository
#   clips    the folder for clips that are made once
#   room     a new folder, which is removed at the end
#   program  vp8serve, once `build` has run; VP8SERVE names another one
set -eu
here=$(cd "$(dirname "$0")" && pwd)
top=$(dirname "$here")
clips=${XDG_CACHE_HOME:-$HOME/.cache}/wokureti
program=${VP8SERVE:-$top/bin/vp8serve}
room=$(mktemp -d)
trap 'rm -rf "$room"' EXIT
PYTHONPATH=$top/compare:$top/clients/python${PYTHONPATH:+:$PYTHONPATH}
export PYTHONPATH

# Ends the script if one of these commands is missing.
need() {
    for tool; do
        command -v "$tool" > /dev/null || { echo "$tool is missing: see README.md for Debian's package" >&2; exit 1; }
    done
}

# Builds the programs, unless VP8SERVE names one.
build() {
    [ -n "${VP8SERVE:-}" ] || "$top/build.py"
}

# Copies these crates to $room with their lines of crates.txt, for a check beside the repository's.
copy_crates() {
    for crate; do
        mkdir -p "$room/crates/$crate"
        for part in src specs proofs; do
            [ ! -d "$top/crates/$crate/$part" ] || cp -r "$top/crates/$crate/$part" "$room/crates/$crate"
        done
        grep "^$crate:" "$top/crates.txt" >> "$room/crates.txt"
    done
}

# Sets vpx to libvpx's library for linking, and ends the script if it is missing.
find_libvpx() {
    vpx=$(cc -print-file-name=libvpx.a)
    [ -f "$vpx" ] || { echo "libvpx.a is missing: install libvpx-dev" >&2; exit 1; }
}

# Sets kit to the folder of the Rattle kit.
find_kit() {
    need rt rustc
    kit=$(dirname "$(rt doc | head -n 1)")
}
