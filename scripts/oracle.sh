#!/bin/sh
# Builds the supplied Rust files, byte for byte, over the shims of oracle/crates (oracle/README.md says what
# those supply), offline, with rustc alone, and compares them with document 01 and with the proved library.
# No part of the gate.
#   scripts/oracle.sh [SEED [CALLS]]     everything: stored vectors, the stored sample, everything small, random calls
#   scripts/oracle.sh faults [SEED]      plants faults in the comparison and says whether each is noticed
#   scripts/oracle.sh sample [--check]   writes the stored sample of the Rust's answers, or asks again and compares
#   scripts/oracle.sh build              builds target/oracle/oracle only
# The supplied files stand in ../shared/docs/src, or where PRIMUS_SRC says. The proved library is built with
# scripts/staticlib.sh on every run, so that the code as it stands is judged; ARCHIVE names one built already.
set -eu
# Relative paths start where the caller stands.
archive=${ARCHIVE:-}
case $archive in '' | /*) ;; *) archive=$PWD/$archive ;; esac
src=${PRIMUS_SRC:-}
case $src in '' | /*) ;; *) src=$PWD/$src ;; esac
cd "$(dirname "$0")/.."
src=${src:-../shared/docs/src}/crates
build=target/oracle
[ -d "$src" ] || { echo "oracle: the supplied files are not at $src; set PRIMUS_SRC"; exit 1; }
rm -rf "$build"
mkdir -p "$build"
cp -R oracle/crates "$build/crates"
# Shims stand beside the supplied files, never in their place.
(cd "$src" && find . -name '*.rs' | LC_ALL=C sort) >"$build/supplied"
while read -r file; do
    [ ! -e "$build/crates/$file" ] || { echo "oracle: a shim has the name of $file"; exit 1; }
    mkdir -p "$build/crates/$(dirname "$file")"
    cp "$src/$file" "$build/crates/$file"
done <"$build/supplied"
while read -r file; do
    cmp "$src/$file" "$build/crates/$file"
done <"$build/supplied"
echo "oracle: $(wc -l <"$build/supplied" | tr -d ' ') supplied files in place, byte for byte"
# Overflow checks and debug assertions are on: admitted input meets none.
rust() {
    rustc --edition 2024 -C opt-level=2 -C debug-assertions=on -C overflow-checks=on -L dependency="$build" "$@"
}
crate() {
    kind=$1 name=$2
    shift 2
    rust --crate-type "$kind" --crate-name "$name" --cap-lints "${LINTS:-allow}" --out-dir "$build" "$build/crates/$name/src/lib.rs" "$@"
}
lib() {
    name=$1
    shift
    externs=
    for need; do
        case $need in
            thiserror) externs="$externs --extern thiserror=$(ls "$build"/libthiserror.*)" ;;
            *) externs="$externs --extern $need=$build/lib$need.rlib" ;;
        esac
    done
    # shellcheck disable=SC2086
    crate rlib "$name" $externs
}
crate proc-macro thiserror --extern proc_macro
lib zeroize
lib rand
lib primus_integer rand
lib primus_reduce primus_integer rand
lib primus_modulus primus_integer primus_reduce
lib primus_data
lib primus_shape
lib primus_distr primus_integer rand
lib primus_decompose primus_integer thiserror
lib primus_encoding primus_integer primus_modulus primus_reduce thiserror
lib primus_lattice primus_data primus_integer primus_reduce primus_shape thiserror
lib primus_lwe primus_data primus_decompose primus_distr primus_encoding primus_integer primus_lattice primus_reduce rand thiserror zeroize
externs=
for need in rand primus_decompose primus_distr primus_encoding primus_lattice primus_lwe primus_modulus primus_reduce; do
    externs="$externs --extern $need=$build/lib$need.rlib"
done
# shellcheck disable=SC2086
rust --crate-type rlib --crate-name supplied $externs --out-dir "$build" oracle/supplied.rs
rust --extern supplied="$build/libsupplied.rlib" oracle/driver.rs -o "$build/oracle"
echo "oracle: $build/oracle is built"
case ${1:-} in
    build) exit 0 ;;
    sample)
        shift
        exec python3 oracle/sample.py "$build/oracle" "$@"
        ;;
esac
if [ -z "$archive" ]; then
    scripts/staticlib.sh >"$build/staticlib.log" 2>&1 || { cat "$build/staticlib.log"; exit 1; }
    archive=target/staticlib/libsaigagalena.a
fi
cp "$archive" "$build/libsaigagalena.a"
rust --extern supplied="$build/libsupplied.rlib" -L native="$build" -l static=saigagalena oracle/random.rs -o "$build/random"
echo "oracle: $build/random is built over the proved library"
if [ "${1:-}" = faults ]; then
    shift
    exec "$build/random" faults "$@"
fi
python3 oracle/compare.py "$build/oracle" "${1:-1}"
python3 oracle/sample.py "$build/oracle" --check
"$build/random" "${1:-1}" ${2:+"$2"}
echo "oracle: no difference"
