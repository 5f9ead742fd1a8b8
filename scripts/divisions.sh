#!/bin/sh
# Shows that no reduction divides where q is a power of two (request T-04): disassembles the library, says which functions have a division at all, and
# makes every call under gdb, stopped at each division, which must not be by q or 2q there. No part of the gate: it wants nm, objdump, gdb and a C
# compiler (CC, default cc) on x86-64, and takes half a minute after the library is built.
#   scripts/divisions.sh            the library; ARCHIVE names one built already, in place of scripts/staticlib.sh
#   scripts/divisions.sh planted    compiled again, twice, with a division planted where the low bits or a shift stood: both must be noticed. It wants the
#                                   library built here by scripts/staticlib.sh
set -eu
# shellcheck source=scripts/archive.sh
. "$(dirname "$0")/archive.sh"
cc=${CC:-cc}

# look ARCHIVE: stops at its divisions
look() {
    nm "$1" 2>/dev/null | sed -n 's/^[0-9a-f]* [tT] //p' | sort >"$room/library"
    "$cc" -std=c11 -g -O1 -no-pie -Wall -Wextra -Wpedantic -Werror -Iinclude tests/c/divisions.c tests/c/draw.c tests/c/damage.c tests/c/place.c \
        tests/c/library.c tests/c/model.c tests/c/lengths.c tests/c/results.c "$1" -o "$room/divisions"
    LIBRARY=$room/library gdb -batch -nx -iex 'set debuginfod enabled off' -x scripts/divisions.py "$room/divisions"
}

# plant FUNCTION SED-COMMAND: the library compiled from LLVM's text of it, edited in one function. Nothing of the kit is copied: its toolchain is a
# folder of links, whose clang is a script, for the length of this run.
plant() {
    kit=$(dirname "$(dirname "$(readlink -f "$(command -v rt)")")")
    chain=$room/toolchain
    rm -rf "$chain"
    mkdir -p "$chain/bin"
    ln -s "$kit/toolchain/lib" "$chain/lib"
    for f in "$kit/toolchain/bin"/*; do [ "$(basename "$f")" = clang ] || ln -s "$f" "$chain/bin/"; done
    cat >"$chain/bin/clang" <<END
#!/bin/sh
set -e
real=$kit/toolchain/bin/clang
"\$real" --target=x86_64-unknown-linux-gnu -march=x86-64 --no-default-config -S -emit-llvm -Xclang -disable-llvm-passes -x ir module.bc -o module.ll
cp module.ll module.was
sed -i '/^define .*"$1"/,/^}/ { $2 }' module.ll
! cmp -s module.ll module.was || { echo "divisions: the text to plant in is gone" >&2; exit 1; }
for a do
    shift
    [ "\$a" != module.bc ] || a=module.ll
    set -- "\$@" "\$a"
done
exec "\$real" "\$@"
END
    chmod +x "$chain/bin/clang"
    set -- "$1" --extern "std=$kit/rlibs/std.rlib" -L "dependency=$kit/rlibs"
    for f in $(sed -n 's/^saigagalena staticlib: //p' crates.txt); do set -- "$@" --extern "$f=$PWD/crates/$f/out/rlib/$f.rlib"; done
    for f in "$PWD"/crates/*/out/rlib; do set -- "$@" -L "dependency=$f"; done
    function=$1
    shift
    (cd crates/saigagalena && "$kit/bin/rattle" build --crate-name saigagalena src/lib.rt "$@" --antt-project "$kit/rattle/logic/antt-project.json" \
        --logic-built "$kit/logic_built" --crate-type staticlib --toolchain "$chain" --backend llvm --incremental out/incremental \
        -o "$room/planted.a") >"$room/log" 2>&1 || { cat "$room/log"; exit 1; }
    if look "$room/planted.a" >"$room/out" 2>&1; then
        echo "divisions: a division planted in $function was not noticed"
        exit 1
    fi
    grep '^divisions: FAILED, by q' "$room/out" || { cat "$room/out"; exit 1; }
    echo "divisions: noticed, a division planted in $function"
}

if [ "${1:-}" = planted ]; then
    # x & mask becomes x % (mask + 1), and x >> bits becomes x / y
    plant 'reduce_words::power::low_bits' 's/^  \(%r[0-9]*\) = and i64 \(%[ar][0-9]*\), \(%[ar][0-9]*\)$/  %planted = add i64 \3, 1\n  \1 = urem i64 \2, %planted/'
    plant 'reduce_words::power::quotient' 's/ = lshr i64 %a0, %[ar][0-9]*$/ = udiv i64 %a0, %a1/'
else
    look "$archive"
fi
