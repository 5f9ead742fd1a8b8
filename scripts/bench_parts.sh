#!/bin/sh
# Where the time of a batch switch goes (bench/parts.c): checks, digits, sums. No part of the gate: it wants a C
# compiler (CC, default cc) and a quiet x86-64 machine.
#   scripts/bench_parts.sh [ARCHIVE]      an archive built already, in place of scripts/staticlib.sh; INCLUDE names another folder of its header
set -eu
ARCHIVE=${1:-}
include=${INCLUDE:-}
case $include in '' | /*) ;; *) include=$PWD/$include ;; esac
# shellcheck source=scripts/archive.sh
. "$(dirname "$0")/archive.sh"
"${CC:-cc}" -std=c11 -D_POSIX_C_SOURCE=199309L -O2 -Wall -Wextra -Wpedantic -Werror -I"${include:-include}" bench/parts.c "$archive" -o "$room/parts"
"$room/parts"
