#!/usr/bin/env bash
# Proves and builds the C interface, and writes target/staticlib/libbrimclif.a.
set -eu
cd "$(dirname "$0")/.."
(cd crates/brimclif_c && rt lib)
mkdir -p target/staticlib
cp crates/brimclif_c/out/libbrimclif_c.a target/staticlib/libbrimclif.a
