#!/bin/sh
# Starts the program of this name that the processor can run. WOKURETI_CPU=x86-64-v2 or x86-64-v3 names the one to start.
self=$(readlink -f "$0")
name=$(basename "$self")
cpu=${WOKURETI_CPU:-}
if [ -z "$cpu" ]; then
    cpu=x86-64-v3
    flags=" $(sed -n '/^flags/{s/.*://p;q}' /proc/cpuinfo) "
    for flag in avx2 bmi1 bmi2 f16c fma abm movbe; do
        case $flags in *" $flag "*) ;; *) cpu=x86-64-v2 ;; esac
    done
fi
program=$(dirname "$(dirname "$self")")/lib/wokureti/$name-$cpu
if [ ! -x "$program" ]; then
    echo "$name: there is no $program: WOKURETI_CPU is x86-64-v2 or x86-64-v3, and the programs are installed next to this one" >&2
    exit 1
fi
exec "$program" "$@"
