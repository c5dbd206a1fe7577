#!/usr/bin/env bash
# Compares the structs, unions and enums of a 32-bit program, as the service reports them, with
# gcc's view of them: the size of each, and the name, offset and size of each of its members.
# usage: tests/doors/ilp32/run.sh PROGRAM [FILE]
# PROGRAM is a built ctfd. FILE is a 32-bit ELF file of C with debug information; by default it is
# compiled from tests/doors/ilp32/types.c. Needs gdb with Python, objcopy, readelf and Python, and
# for types.c gcc with -m32, which needs Debian's package gcc-multilib; if one is missing, says so
# and exits with status 0.
#
# tests/doors/gdb/with_ctf.sh makes a program with a CTF section from what gdb reads of FILE, and
# the client opens it as a 32-bit file. tests/doors/ilp32/compare.py compares its types with the
# debug information of FILE, as readelf prints it. It prints each type that differs, then the number
# of types that are equal, and the number that would be equal if pointers had 8 bytes; the status is
# 1 if one differs.
set -eu
program=$(realpath "$1")
file=${2:+$(realpath "$2")}
doors=$(realpath "$(dirname "$0")/..")
for tool in gdb objcopy readelf python3; do
    command -v "$tool" > /dev/null || { echo "skipped: no $tool here"; exit 0; }
done
gdb -batch -nx -ex 'python print(1)' > /dev/null 2>&1 ||
    { echo "skipped: gdb has no Python"; exit 0; }
work=$(mktemp -d)
trap 'rm -r "$work"' EXIT
cd "$work"

if [ -z "$file" ]; then
    printf '#include <stdio.h>\nint main(void) { return puts("") < 0; }\n' > small.c
    gcc -m32 -o small small.c 2> said ||
        { cat said; echo "skipped: gcc -m32 makes no program here (Debian: gcc-multilib)"; exit 0; }
    file=types
    gcc -m32 -g -fno-eliminate-unused-debug-types -o "$file" "$doors/ilp32/types.c"
fi
ALL=1 "$doors/gdb/with_ctf.sh" "$file" with_ctf
"$doors/ilp32/compare.py" "$program" "$file" with_ctf
