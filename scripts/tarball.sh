#!/bin/sh
# Installs the files beside this script below a prefix, or removes them.
# usage: ./install.sh [--remove] [PREFIX]
# The default PREFIX is /usr/local. For `import ctfd` in Python 3.9 or later, add PREFIX/lib/ctfd to
# Python's path, or install the wheel.
set -eu
remove=
[ "${1:-}" != --remove ] || { remove=yes; shift; }
case "${1:-}" in -*) sed -n 's/^# //p' "$0"; exit 2 ;; esac
prefix=${1:-/usr/local}
cd "$(dirname "$0")"
if [ -n "$remove" ]; then
    while read -r file; do rm -f "$prefix/$file"; done < FILES
    if [ -d "$prefix/lib/ctfd" ]; then
        find "$prefix/lib/ctfd" -depth -name __pycache__ -exec rm -r {} +
        find "$prefix/lib/ctfd" -depth -type d -empty -delete
    fi
    exit
fi
mkdir -p "$prefix"
prefix=$(cd "$prefix" && pwd)
while read -r file; do
    mkdir -p "$prefix/$(dirname "$file")"
    cp -fP "$file" "$prefix/$file"
done < FILES
pc=$prefix/lib/pkgconfig/ctfd.pc  # this file and the units contain absolute paths
sed "s|^prefix=.*|prefix=$prefix|" lib/pkgconfig/ctfd.pc > "$pc"
for unit in lib/systemd/system/*; do
    sed "s|/bin/ctfd|$prefix/bin/ctfd|g" "$unit" > "$prefix/$unit"
done
