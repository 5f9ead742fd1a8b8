#!/bin/sh
# Writes the saved files of the releases, and those of the pooling box, through the library's C calls, and compares them byte for byte with the
# stored ones. No part of the gate: it wants a C compiler (CC, default cc) on x86-64.
# ARCHIVE names another archive than the one that is built here, INCLUDE another folder of its header: of an earlier release the files of later ones are
# left out.
set -eu
# A relative path starts where the caller stands.
include=${INCLUDE:-}
case $include in '' | /*) ;; *) include=$PWD/$include ;; esac
# shellcheck source=scripts/archive.sh
. "$(dirname "$0")/archive.sh"
cc=${CC:-cc}
"$cc" -std=c11 -Wall -Wextra -Wpedantic -Werror -O2 -I"${include:-include}" scripts/release_files.c "$archive" -o "$room/release_files"
stored=crates/release_files/data
for setting in $(cd "$stored" && echo */*) box; do mkdir -p "$room/files/$setting"; done
"$room/release_files" "$room/files"
version=$(sed -n 's/^#define SAIGAGALENA_VERSION //p' "${include:-include}/saigagalena.h")
for release in $(ls "$stored"); do
    [ "${release#release_}" -gt "$version" ] || diff -r "$room/files/$release" "$stored/$release"
done
diff -r "$room/files/box" crates/pooling_box/data
echo "release_files: OK, $(find "$room/files" -type f | wc -l) files"
