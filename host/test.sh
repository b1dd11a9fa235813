#!/bin/sh
# Runs every test of the host and of the comparison through the archive of the proved library, and makes the archive first (archive.sh). With YIFGRUN_ARCHIVE
# set, that archive is tested and none is made.
set -eu
cd "$(dirname "$0")/.."
if [ -z "${YIFGRUN_ARCHIVE:-}" ]; then
    host/archive.sh
fi
for package in host host/compare; do
    (cd "$package" && cargo test --offline --release)
done
