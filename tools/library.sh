#!/usr/bin/env bash
# Proves and builds the C library: `bash tools/library.sh` writes target/staticlib/libcapi.a.
set -eu
cd "$(dirname "$0")/.."
(cd crates/capi_c && rt lib)
mkdir -p target/staticlib
cp crates/capi_c/out/libcapi_c.a target/staticlib/libcapi.a
