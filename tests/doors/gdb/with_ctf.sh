#!/usr/bin/env bash
# Copies a program without its debug information, but with its types as CTF of version 2.
# usage: tests/doors/gdb/with_ctf.sh PROGRAM OUT
# PROGRAM is an ELF file of C with debug information, as `gcc -g` makes it: a program or a library,
# for 64 bits or 32. OUT is the same without it, with its symbol table and a section .SUNW_ctf.
# Needs gdb with Python and objcopy. make_ctf.py describes which types OUT gets, with ALL=1 in the
# environment and without, and what is lost.
set -eu
here=$(realpath "$(dirname "$0")")
made=$(mktemp)
trap 'rm "$made"' EXIT
objcopy --strip-debug --add-section .SUNW_ctf="$made" "$1" "$2"
MADE_OF=$2 MADE=$made gdb -batch -nx -x "$here/make_ctf.py" "$1"
objcopy --update-section .SUNW_ctf="$made" "$2"
