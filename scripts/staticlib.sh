#!/usr/bin/env bash
# Proves the calls of the C service and writes target/staticlib/libsaigagalena.a, the static library of crates/saigagalena.
set -eu
cd "$(dirname "$0")/.."
(cd crates/saigagalena && rt lib)
mkdir -p target/staticlib
cp crates/saigagalena/out/libsaigagalena.a target/staticlib/libsaigagalena.a
echo "target/staticlib/libsaigagalena.a has the calls of include/saigagalena.h"
