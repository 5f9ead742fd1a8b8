#!/bin/sh
# Proves and builds the pooling box (some minutes the first time) and runs it on folders of damaged and odd files:
# scripts/box_test.py has the cases. No part of the gate: it measures time too.
# PROGRAM names another program than the one that is built here.
set -eu
# A relative path starts where the caller stands.
program=${PROGRAM:-}
case $program in '' | /*) ;; *) program=$PWD/$program ;; esac
cd "$(dirname "$0")/.."
if [ -z "$program" ]; then
  program=$(scripts/program.sh pooling_box)
fi
exec python3 scripts/box_test.py "$program"
