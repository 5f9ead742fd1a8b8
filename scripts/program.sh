#!/bin/sh
# Proves and builds a program of the repository, and prints its path.
#   scripts/program.sh NAME
set -eu
cd "$(dirname "$0")/../crates/$1"
# it is run once, on no input, and stays
said=$(rt run </dev/null 2>&1) || { echo "$said" >&2; exit 1; }
echo "$PWD/out/$1"
