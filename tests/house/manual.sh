#!/usr/bin/env bash
# Checks that groff prints no warnings for the manual pages, and that the page of each compiled
# command lists exactly its options (manual_options.py).
# usage: tests/house/manual.sh
set -u
cd "$(dirname "$0")/../../docs/man" || exit 1
compiled=${CARGO_TARGET_DIR:-../../clients/rust/target}/release
if [ -x "$compiled/ctfd-types" ]; then
    ../../tests/house/manual_options.py "$compiled" || exit 1
else
    echo "skipped: the commands are not compiled"
fi
command -v groff > /dev/null || { echo "skipped: no groff here"; exit 0; }
said=$(groff -mandoc -Tutf8 -ww -z ./* 2>&1) && [ -z "$said" ] && exit 0
echo "$said"
exit 1
