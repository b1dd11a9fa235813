#!/bin/sh
# Proves the library and writes its archive to target/staticlib/libyifgrun.a. What rt check or an earlier call proved here is not proved again.
set -eu
cd "$(dirname "$0")/.."
(cd crates/yifgrun_c && rt lib)
mkdir -p target/staticlib
cp crates/yifgrun_c/out/libyifgrun_c.a target/staticlib/libyifgrun.a
