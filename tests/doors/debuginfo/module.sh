#!/usr/bin/env bash
# Compares gdb's answers about a kernel module with the compiler's debug information and with the
# debug file of ctfd-debuginfo, both loaded at addresses that a kernel might choose.
# usage: tests/doors/debuginfo/module.sh CTFD MODULE [VMLINUX]
# CTFD is a built ctfd, and MODULE a module with debug information, such as those of Debian's
# linux-image-..-dbg. With VMLINUX, its kernel with BTF, the module's types are a child of the
# kernel's. Prints counts (module.py); the status is 1 if an answer differs without a known reason.
set -eu
CTFD=$(realpath "$1")
export CTFD LC_ALL=C
tests=$(realpath "$(dirname "$0")")
compiled=${CARGO_TARGET_DIR:-$(realpath "$tests/../../../clients/rust/target")}/release
module=$(realpath "$2") kernel=${3:+$(realpath "$3")}
work=$(mktemp -d)
trap 'rm -r "$work"' EXIT
cd "$work"
parent=()
if [ -n "$kernel" ]; then
    "$compiled/ctfd-convert" --lossy --from btf "$kernel" kernel.ctf 2> /dev/null
    parent=(--parent kernel.ctf)
fi
"$compiled/ctfd-convert" --lossy --from dwarf "${parent[@]}" --section "$module" with.ko 2> /dev/null
"$compiled/ctfd-debuginfo" "${parent[@]}" --symbols "$module" with.ko it.debug
llvm-dwarfdump --verify it.debug | tail -n 1
placed=$("$tests/placed.py" "$module")
for one in "first $module" "ours it.debug"; do
    NAMES=names OUT=${one% *} gdb -batch -nx -iex 'set debug-file-directory /none' \
        -ex "add-symbol-file ${one#* } $placed" -x "$tests/dump.py" > log 2>&1 ||
        { cat log; exit 1; }
done
"$tests/module.py" "$module" first ours
