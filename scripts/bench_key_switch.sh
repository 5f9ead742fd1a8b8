#!/bin/sh
# Measures the C call saigagalena_key_switch_batch beside the same loops in Rust (bench/ported.rs): the
# same words, times as ratios, growth, stack and heap. No part of the gate: it wants rustc, nm and a quiet
# x86-64 machine, and takes one to three minutes after the library is built.
#   scripts/bench_key_switch.sh [ARCHIVE]      an archive built already, in place of scripts/staticlib.sh
set -eu
ARCHIVE=${1:-}
# shellcheck source=scripts/archive.sh
. "$(dirname "$0")/archive.sh"
cp "$archive" "$room/libsaigagalena.a"
rustc --edition 2024 -C opt-level=3 -L native="$room" -l static=saigagalena bench/key_switch.rs -o "$room/key_switch"
"$room/key_switch"
# What the archive takes from outside itself.
nm "$room/libsaigagalena.a" >"$room/names"
awk 'NF == 2 && $1 == "U" { needs[$2] } NF == 3 { has[$3] } END { for (s in needs) if (!(s in has)) print s }' "$room/names" |
    sort >"$room/imports"
[ -s "$room/imports" ] || echo nothing >"$room/imports"
echo "Heap: the archive imports $(paste -sd ' ' "$room/imports")."
if grep -E '^_*(malloc|calloc|realloc|reallocarray|free|posix_memalign|aligned_alloc|memalign|valloc|pvalloc|mmap|mmap64|mremap|brk|sbrk|syscall|rust_alloc.*|rdl_alloc.*|Zn[aw].*)$' "$room/imports"; then
    echo "bench_key_switch: FAILED, an allocator is imported"
    exit 1
fi
echo "bench_key_switch: OK"
