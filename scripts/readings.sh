#!/usr/bin/env bash
# Proves and builds the program `readings`, and runs it.
#
#   scripts/readings.sh                     the sample of document 01
#   scripts/readings.sh 01 11 00 00 00 ..   commands as bytes in hexadecimal
#   scripts/readings.sh - < FILE            commands from standard input
set -eu
cd "$(dirname "${BASH_SOURCE[0]}")/.."
program=$(scripts/program.sh readings)
if [ $# = 0 ]; then
  exec "$program" < crates/readings/stdin
fi
if [ "$1" = - ]; then
  exec "$program"
fi
printf '%b' "$(printf '\\x%s' "$@")" | "$program"
