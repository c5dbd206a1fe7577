#!/usr/bin/env bash
# Compares the types that ctfd-convert and ctfd.build make with what compilers and pahole report.
# usage: tests/doors/convert/run.sh PROGRAM [--whole] [CASE..]
# PROGRAM is a built ctfd. Needs gcc, and a Python with pycparser (Debian's python3-pycparser); if
# one is missing, says so and exits with status 0. 32-bit programs need gcc-multilib, and BTF and
# headers need dwarves.
#
# Random C files are compiled for each data model of gcc and run, and print the offsets of their
# members. These are compared, through the service, with dictionaries made from the files' debug
# information, from GNU's CTF, from BTF and from their declarations; run.py lists all comparisons.
# Then files are damaged in 600 ways, each of which must be read or refused (mutants.py). And one
# program, with debug information in all forms that gcc, clang, the linker, strip, objcopy and dwz
# produce, is compared with what pahole and gdb report (forms.py).
#
# --whole takes 500 files and 6,000 damaged ones, compares the headers of the C library and the
# kernel with pahole's view of them (headers.py), and converts the BTF of this machine's kernel if
# it is readable (kernel.py). CASE is one of run, mutants, forms, headers, kernel.
set -eu
program=$(realpath "$1")
here=$(realpath "$(dirname "$0")")
command -v gcc > /dev/null || { echo "skipped: no gcc here"; exit 0; }
python=
for one in python3 /usr/bin/python3; do
    "$one" -c 'import pycparser' 2> /dev/null && { python=$one; break; }
done
[ -n "$python" ] || { echo "skipped: no Python with pycparser here"; exit 0; }
failed=0 count=16 gnu=4 damaged=600 cases=(run mutants forms)
kernel=/sys/kernel/btf/vmlinux
shift
if [ "${1:-}" = --whole ]; then
    shift
    count=500 gnu=50 damaged=6000
    command -v pahole dpkg > /dev/null && cases+=(headers)
    [ ! -r "$kernel" ] || cases+=(kernel)
fi
[ $# = 0 ] || cases=("$@")
for one in "${cases[@]}"; do
    case $one in
    run) words=("$count" --gnu "$gnu") ;;
    mutants) words=("$damaged") ;;
    kernel) words=("$kernel") ;;
    forms | headers) words=() ;;
    *) echo "$one is none of run, mutants, forms, headers, kernel" && exit 2 ;;
    esac
    "$python" "$here/$one.py" "$program" "${words[@]}" || failed=1
done
exit $failed
