#!/usr/bin/env bash
# Compares what the plug-in in clients/gdb prints about a program without debug information with
# what gdb itself prints about the same program with it, for 64 bits and for 32.
# usage: tests/doors/gdb/run.sh PROGRAM
# PROGRAM is a built ctfd. Needs gdb with Python, gcc, objcopy and nm; if one is missing, or gdb can
# run no program on this machine, says so and exits with status 0. If 32-bit programs cannot be
# built or run, only 64 bits are compared. Prints each answer that differs, then the number of equal
# ones; the status is 1 if one differs.
#
# tests/doors/gdb/values.c is compiled with debug information. tests/doors/gdb/with_ctf.sh makes a
# program without it, but with a CTF section made from what gdb reads of it. One gdb runs the
# stripped program up to stop(), asks the plug-in about every object and about each line of
# tests/doors/gdb/expressions.txt, then loads the debug information and answers itself.
set -eu
program=$(realpath "$1")
doors=$(realpath "$(dirname "$0")/..")
for tool in gdb gcc objcopy nm; do
    command -v "$tool" > /dev/null || { echo "skipped: no $tool here"; exit 0; }
done
gdb -batch -nx -ex 'python print(1)' > /dev/null 2>&1 ||
    { echo "skipped: gdb has no Python"; exit 0; }
gdb -batch -nx -ex run --args true 2> /dev/null | grep -q 'exited normally' ||
    { echo "not possible here: gdb runs no program"; exit 0; }
work=$(mktemp -d)
trap 'rm -r "$work"' EXIT
cd "$work"
export CTFD=$program LC_ALL=C
failed=0

# built SOURCE OPTION..: compiles ./twin, with debug information.
built() {
    gcc -g -O0 -fpie -pie -nostdlib -ffreestanding -fno-stack-protector -o twin "$@"
}

# named KINDS: prints the names in ./twin with one of these nm kinds, except the compiler's own.
named() {
    nm twin | awk -v kinds="^[$1]\$" '$2 ~ kinds && $3 !~ /^_/ { print $3 }' | sort
}

# asked: prints the questions about each object of ./twin, and tests/doors/gdb/expressions.txt.
asked() {
    named BDdbRr | sed 's/.*/print &\nprint\/x &\nprint \&&\nwhatis &\nwhatis \&&/'
    cat "$doors/gdb/expressions.txt"
}

# compared BUILD WORD..: compares the answers to ./expressions for ./twin; the WORDs are added to
# the environment.
compared() {
    "$doors/gdb/with_ctf.sh" twin stripped
    known=$(nm stripped | awk '$3 == "_start" { print $3 "=0x" $1 }')
    env BUILD="$1" TWIN=twin EXPRESSIONS=expressions KNOWN="$known" "${@:2}" gdb -batch -nx \
        -ex 'set width 0' -ex 'set charset ASCII' -ex 'set max-value-size unlimited' \
        -ex "source $doors/../../clients/gdb/ctfgdb.py" -ex 'set ctf-debuginfo off' \
        -ex 'ctf load' -ex 'break *stop' -ex 'run' \
        -x "$doors/gdb/compare.py" stripped || failed=1
}

built "$doors/gdb/values.c"
asked > expressions
compared "64 bits"

# The service reads no 32-bit symbol tables, so every.c gives the program a pointer to each object
# and function, all in one object. stop() takes its arguments in registers, as on 64 bits.
if ! built "$doors/gdb/values.c" -m32 -mregparm=3 2> said; then
    cat said
    echo "skipped: gcc -m32 makes no program here (Debian: gcc-multilib)"
    exit $failed
elif ! ./twin; then
    echo "not possible here: a program of 32 bits does not run"
    exit $failed
fi
asked | sed 's/\$rdi/$eax/g; s/\$rsi/$edx/g' > expressions
named BDdbRrTt > names
{
    echo "#include \"$doors/gdb/values.c\""
    echo "struct every {" && sed 's/.*/__typeof__(&) *&;/' names
    echo "} every = {" && sed 's/.*/\&&,/' names && echo "};"
} > every.c
built every.c -m32 -mregparm=3
compared "32 bits" POINTED=names
exit $failed
