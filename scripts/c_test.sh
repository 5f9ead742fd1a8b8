#!/bin/sh
# The C interface, tried: builds the static library with scripts/staticlib.sh (or takes the one that ARCHIVE
# names), compiles the header as C11 and C++, the examples and the tests, each without and with sanitizers, and runs
# them. No part of the gate: it wants nm and a C compiler on x86-64 (CC, default cc; CXX, default c++, is left out
# where there is none; so are the sanitizers, and rustc for the example in Rust).
set -eu
# shellcheck source=scripts/archive.sh
. "$(dirname "$0")/archive.sh"
cc=${CC:-cc}
cxx=${CXX:-c++}
strict="-Wall -Wextra -Wpedantic -Werror -Iinclude"
harness="tests/c/compare.c tests/c/place.c tests/c/draw.c tests/c/damage.c tests/c/library.c"
model="tests/c/model.c tests/c/lengths.c tests/c/results.c"

# The header by itself, and a tag that goes in and comes out.
cat >"$room/header.c" <<'END'
#include "saigagalena.h"
int main(void)
{
    const saigagalena_tag tag = saigagalena_saved_tag(7, 5);
    return tag.tally != 7 || tag.count != 5;
}
END
cp "$room/header.c" "$room/header.cpp"
# shellcheck disable=SC2086 # the flags are several words
"$cc" -std=c11 $strict "$room/header.c" "$archive" -o "$room/header_c"
"$room/header_c"
if command -v "$cxx" >/dev/null; then
    # shellcheck disable=SC2086
    "$cxx" $strict "$room/header.cpp" "$archive" -o "$room/header_cpp"
    "$room/header_cpp"
    echo "c_test: the header is C11 and C++"
else
    echo "c_test: the header is C11; no C++ compiler"
fi

# Every export is declared for C and for Rust, and the model has it; the version has no operands, so it stands in cases.c.
nm "$archive" 2>/dev/null | awk '$2 == "T" && $3 ~ /^saigagalena_/ { print $3 }' | sort >"$room/exports"
grep -o 'saigagalena_[a-z_]*(' include/saigagalena.h | tr -d '(' | grep -v refusal_text | sort -u >"$room/in_c"
sed -n 's/^    pub fn \(saigagalena_[a-z_]*\)(.*/\1/p' include/saigagalena.rs | sort >"$room/in_rust"
{ sed -n 's/^    {"\([a-z_]*\)",.*/saigagalena_\1/p' tests/c/model.c; echo saigagalena_version; } | sort >"$room/in_model"
for list in in_c in_rust in_model; do diff "$room/exports" "$room/$list"; done
echo "c_test: $(wc -l <"$room/exports" | tr -d ' ') exports, each declared for C and Rust, and in the model"

# Builds everything in a directory of its own, with the flags given, and runs it.
try() {
    dir="$room/$1"
    shift
    mkdir "$dir"
    # shellcheck disable=SC2086
    {
        "$cc" -std=c11 $strict "$@" examples/decode.c "$archive" -o "$dir/decode"
        "$cc" -std=c11 $strict "$@" examples/pool.c "$archive" -o "$dir/pool"
        "$cc" -std=c11 $strict "$@" tests/c/cases.c "$archive" -o "$dir/cases"
        "$cc" -std=c11 $strict "$@" tests/c/tags.c "$archive" -o "$dir/tags"
        "$cc" -std=c11 $strict "$@" tests/c/marks.c "$archive" -o "$dir/marks"
        "$cc" -std=c11 $strict "$@" tests/c/error_words.c "$archive" -o "$dir/error_words"
        "$cc" -std=c11 $strict "$@" tests/c/refusals.c $harness $model "$archive" -o "$dir/refusals"
    }
    "$dir/decode"
    "$dir/pool" >"$dir/pool.out"
    diff examples/pool.out "$dir/pool.out"
    "$dir/cases"
    "$dir/tags"
    "$dir/marks"
    "$dir/error_words"
    "$dir/refusals"
}

try plain -O2
# The header says that a call uses less than 256 KiB of stack; here the test has no more, itself and all.
(ulimit -s 256 && env -i "$room/plain/refusals") >"$room/stack" 2>&1 || { tail "$room/stack"; exit 1; }
echo "c_test: the same within 256 KiB of stack"
sanitize="-O1 -g -fsanitize=address,undefined -fno-sanitize-recover=all"
# shellcheck disable=SC2086
if echo 'int main(void) { return 0; }' | "$cc" -x c $sanitize -o "$room/probe" - 2>/dev/null && "$room/probe"; then
    try sanitized $sanitize
else
    echo "c_test: no sanitizers here"
fi
if command -v rustc >/dev/null; then
    rustc --edition 2024 -O examples/decode.rs -C link-arg="$archive" -o "$room/decode_rs"
    "$room/decode_rs"
else
    echo "c_test: no rustc here"
fi
echo "c_test: OK"
