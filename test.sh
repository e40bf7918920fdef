#!/bin/sh
# Runs every test that needs no proof over the programs in bin/, which it makes ready as serve.sh does: test.sh [--built] [NAME ..]
# With --built the programs are those that `rt ci` built in crates/. NAME picks the tests whose names have it.
set -eu
top=$(cd "$(dirname "$0")" && pwd)
if [ "${1:-}" = --built ]; then
    shift
    VP8SERVE=$top/crates/vp8serve/out/vp8serve
    VP8LIST=$top/crates/vp8list/out/vp8list
else
    python3 "$top/build.py" --ready test.sh
    VP8SERVE=$top/bin/vp8serve
    VP8LIST=$top/bin/vp8list
fi
export VP8SERVE VP8LIST PYTHONDONTWRITEBYTECODE=1
exec python3 "$top/tests/run.py" "$@"
