#!/usr/bin/env bash
# The main job: shops' rows of encrypted counts are added, switched to the buying group's key and opened.
#
#   scripts/pooling_box.sh            runs the program on the files stored with it, some of them damaged on purpose, and prints what it
#                                     writes; a few seconds, for the program is compiled without its proofs here
#   scripts/pooling_box.sh FOLDER [T] proves and builds it (some minutes the first time) and runs it on other files: switching_key,
#                                     group_secret, shop_1 .. shop_9; counts are taken modulo T, 1024 where it is left out. docs/FILES.md has their layout
set -eu
# A relative path starts where the caller stands.
folder=${1:-}
case $folder in '' | /*) ;; *) folder=$PWD/$folder ;; esac
cd "$(dirname "${BASH_SOURCE[0]}")/.."
if [ $# = 0 ]; then
  said=$(rt try pooling_box 2>&1) || { echo "$said"; exit 1; }
  # rt try keeps no program: this is what the run has just been compared with, line for line
  exec cat crates/pooling_box/stdout
fi
[ -d "$folder" ] || { echo "pooling_box: no folder '$folder'" >&2; exit 1; }
program=$(scripts/program.sh pooling_box)
cd "$folder"
exec "$program" ${2:+"$2"}
