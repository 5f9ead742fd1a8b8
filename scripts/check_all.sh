#!/bin/sh
# Everything that stands outside the gate, one named step after the other; a step that lacks a tool is skipped, and the reason is said. It takes some
# six minutes on two cores once the crates are proved. Exit status 1 where a step failed.
#   scripts/check_all.sh    builds the static library; ARCHIVE names one built already, in place of scripts/staticlib.sh
set -eu
# A relative path starts where the caller stands.
ARCHIVE=${ARCHIVE:-}
case $ARCHIVE in '' | /*) ;; *) ARCHIVE=$PWD/$ARCHIVE ;; esac
export ARCHIVE
cd "$(dirname "$0")/.."
room=$(mktemp -d)
trap 'rm -rf "$room"' EXIT
failed=0 skipped=0
src=${PRIMUS_SRC:-../shared/docs/src}

# what is missing of the tools named, or nothing
missing() {
    for tool; do command -v "$tool" >/dev/null || { echo "no $tool here"; return; }; done
}

# step NAME TOOLS COMMAND..
step() {
    name=$1 tools=$2
    shift 2
    # shellcheck disable=SC2086 # several tools
    lack=$(missing $tools)
    if [ -n "$lack" ]; then
        echo "$name: skipped, $lack"
        skipped=$((skipped + 1))
    elif "$@" >"$room/log" 2>&1; then
        echo "$name: $(tail -n 1 "$room/log")"
    else
        echo "$name: FAILED"
        tail -n 20 "$room/log"
        failed=$((failed + 1))
    fi
}

cc=${CC:-cc}
step "calls and documents" python3 python3 scripts/calls.py
for vectors in digits_vectors count_vectors codec_vectors lwe_vectors switch_vectors readings_runs release_files; do
    step "stored $vectors" python3 python3 "scripts/$vectors.py" --check
done
if [ -z "$ARCHIVE" ]; then
    step "the static library" "rt ar" scripts/staticlib.sh
    ARCHIVE=$PWD/target/staticlib/libsaigagalena.a
fi
if [ -f "$ARCHIVE" ]; then
    step "C tests" "$cc nm" scripts/c_test.sh
    step "C fuzz" "$cc" scripts/c_fuzz.sh
    step "faults in the C model" "$cc" scripts/c_faults.sh
    step "files of the releases" "$cc" scripts/release_files.sh
    step "divisions" "$cc nm objdump gdb" scripts/divisions.sh
    if [ -d "$src/crates" ]; then
        step "the Rust" "rustc python3" scripts/oracle.sh
        step "faults beside the Rust" "rustc python3" scripts/oracle.sh faults
    else
        echo "the Rust: skipped, the supplied files are not at $src; set PRIMUS_SRC"
        skipped=$((skipped + 1))
    fi
else
    echo "calls from C and the Rust: skipped, no archive"
    skipped=$((skipped + 1))
fi
step "the pooling box" "rt python3" scripts/box_test.sh
echo "check_all: $failed failed, $skipped skipped"
[ "$failed" = 0 ]
