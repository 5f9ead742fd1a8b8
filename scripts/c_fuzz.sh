#!/bin/sh
# Fuzzing of the static library through C: damaged copies of good operands for every call, against a plain C model of
# document 01. `scripts/c_fuzz.sh [SEED [COUNT [SECONDS]]]`, by default 1 1000000 120: it ends after so many calls or
# so many seconds, whichever comes first. Takes the archive that ARCHIVE names, or builds it with scripts/staticlib.sh.
# SANITIZE=1 compiles the C side with sanitizers. No part of the gate: it wants a C compiler (CC, default cc) on x86-64.
set -eu
# shellcheck source=scripts/archive.sh
. "$(dirname "$0")/archive.sh"
cc=${CC:-cc}

flags="-O2"
if [ -n "${SANITIZE:-}" ]; then
    flags="-O1 -g -fsanitize=address,undefined -fno-sanitize-recover=all"
fi
# shellcheck disable=SC2086 # the flags are several words
"$cc" -std=c11 -Wall -Wextra -Wpedantic -Werror $flags -Iinclude \
    tests/c/fuzz.c tests/c/compare.c tests/c/place.c tests/c/draw.c tests/c/damage.c tests/c/library.c \
    tests/c/model.c tests/c/lengths.c tests/c/results.c "$archive" -o "$room/fuzz"
"$room/fuzz" "$@"
echo "c_fuzz: OK"
