#!/usr/bin/env bash
# Builds the program and the library for C without proofs, and compares them with proved ones.
# usage: tests/doors/packages/quick.sh PROGRAM [LINES]
# PROGRAM was built by the kit with its proofs. Both programs reply to LINES random lines (1000000)
# with the same bytes, and the new library passes tests/doors/c_library/run.sh. Each build says
# which kind it is, and the proved one names its kit. Needs the kit.
# Prints errors; the status is then 1.
set -eu
program=$(realpath "$1")
lines=${2:-1000000}
top=$(realpath "$(dirname "$0")/../../..")
command -v rt > /dev/null || { echo "skipped: rt is not on the path"; exit 0; }
work=$(mktemp -d)
trap 'rm -r "$work"' EXIT
cd "$work"
"$top/scripts/quick.py" --into "$work/built"

# says TEXT FILE: checks that a program or library contains this text about its build.
says() {
    grep -qaF "$1" "$2" || { echo "$2 does not say: $1"; exit 1; }
}

read -r kit _ logic < <(rt version)
says "proved build: ${kit%%[a-z]}, logic $logic" "$program"
for made in built/ctfd built/libctfd.a; do
    says "quick build: proofs not checked" "$made"
    if grep -qaF "proved build" "$made"; then
        echo "$made says that it is proved"
        exit 1
    fi
done
if find built -type l | grep -q .; then
    echo "the quick build leaves symbolic links, which rt ci refuses"
    exit 1
fi
python3 "$top/bench/random_lines.py" "$program" built/ctfd "$lines"
CTFD_ARCHIVE=$work/built/libctfd.a "$top/tests/doors/c_library/run.sh" built/ctfd
