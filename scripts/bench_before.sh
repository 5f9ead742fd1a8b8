#!/bin/sh
# Measures calls through this library beside an earlier archive of it, in one run: ratios, and the same words from both. No part of the gate: it wants a
# C compiler (CC, default cc), ld, objcopy and a quiet x86-64 machine; some seconds once both archives are built.
#   scripts/bench_before.sh BEFORE [ARCHIVE]      the earlier archive; one built already, in place of scripts/staticlib.sh
# INCLUDE names the folder of the earlier archive's header where that is another: as of any release before 6, whose tags had no c.
set -eu
[ $# -ge 1 ] || { sed -n '2,5p' "$0"; exit 2; }
before=$1
case $before in /*) ;; *) before=$PWD/$before ;; esac
include=${INCLUDE:-}
case $include in '' | /*) ;; *) include=$PWD/$include ;; esac
ARCHIVE=${2:-}
# shellcheck source=scripts/archive.sh
. "$(dirname "$0")/archive.sh"
cc=${CC:-cc}
strict="-std=c11 -O2 -Wall -Wextra -Wpedantic -Werror"
# side NAME ARCHIVE INCLUDE: the calls and one archive, with run_NAME as its only name for outside. Every function begins a line of the cache, as where one
# happens to begin moves a loop's time by a tenth.
side() {
    # shellcheck disable=SC2086 # the flags are several words
    "$cc" $strict -I"$3" -c bench/calls.c -o "$room/calls.o"
    ld -r -o "$room/$1.o" "$room/calls.o" "$2"
    objcopy --keep-global-symbol=run_call --set-section-alignment '.text*=64' "$room/$1.o"
    objcopy --redefine-sym "run_call=run_$1" "$room/$1.o"
}
side before "$before" "${include:-include}"
side now "$archive" include
# shellcheck disable=SC2086
"$cc" $strict bench/before.c "$room/before.o" "$room/now.o" -o "$room/bench"
"$room/bench"
