#!/usr/bin/env bash
# Fails if clippy reports anything in the Rust workspace, including its tests.
# usage: tests/doors/rust/clippy.sh
set -eu
cd "$(dirname "$0")/../../.."
cargo clippy --version > /dev/null 2>&1 || { echo "skipped: no clippy here"; exit 0; }
exec scripts/rust.py clippy --quiet --workspace --all-targets -- -D warnings
