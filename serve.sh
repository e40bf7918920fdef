#!/bin/sh
# Serves a stream with the programs of this repository: serve.sh [IN] [REQUESTS] [OUT], as in vp8serve --help.
# Ready programs are in dist/: it puts them into bin/, and says which ones it starts. ./build.py proves and builds them again.
# WOKURETI_CPU=x86-64-v2 or x86-64-v3 names the processor that they are for; on ARM there is one build.
set -eu
top=$(cd "$(dirname "$0")" && pwd)
if ! python3 -c 'import sys; sys.exit(sys.version_info < (3, 9))' 2> /dev/null; then
    echo "serve.sh: it needs Python 3.9 or later as python3" >&2
    exit 1
fi
case "$(uname -s) $(uname -m)" in
'Linux x86_64' | 'Linux aarch64') ;;
*)
    echo "serve.sh: the programs here are for Linux on x86-64 and on ARM; README.md has a table of systems" >&2
    exit 1
    ;;
esac
python3 "$top/build.py" --ready serve.sh
status=0
"$top/bin/vp8serve" "$@" || status=$?
case "$status $* " in
'0 '* | *' --explain '*) ;;
*) echo "serve.sh: the program ended with status $status; with --explain it says why, and what to do" >&2 ;;
esac
exit "$status"
