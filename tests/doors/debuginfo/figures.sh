#!/usr/bin/env bash
# Measures how many of gdb's answers with the compiler's debug information are the same with the
# debug files of ctfd-debuginfo, and what these files cost.
# usage: tests/doors/debuginfo/figures.sh CTFD PROGRAM [WORD]..
# CTFD is a built ctfd. PROGRAM has debug information, and runs with the WORDs. Needs what
# tests/doors/debuginfo/run.sh needs. Prints the processor time and memory of ctfd-debuginfo, the
# size of its file and of the compiler's debug sections, the processor time that gdb takes for one
# question without the file and with it, and the number of equal answers (count.py): at the start of
# main, and about the arguments of each function at its first call.
set -eu
CTFD=$(realpath "$1")
export CTFD LC_ALL=C
tests=$(realpath "$(dirname "$0")")
compiled=${CARGO_TARGET_DIR:-$(realpath "$tests/../../../clients/rust/target")}/release
program=$(realpath "$2")
shift 2
work=$(mktemp -d)
trap 'rm -r "$work"' EXIT

# spent WORD..: runs a command, and prints its processor time and peak memory.
spent() {
    python3 -c '
import resource, subprocess, sys
subprocess.run(sys.argv[1:], stdin=subprocess.DEVNULL, stdout=subprocess.DEVNULL,
               stderr=subprocess.DEVNULL)
used = resource.getrusage(resource.RUSAGE_CHILDREN)
print(f"{used.ru_utime + used.ru_stime:.2f} s, {used.ru_maxrss >> 10} MB")' "$@"
}

# by SCRIPT OUT WORD..: runs dump.py or arguments.py at the start of main, in gdb with the words.
# The names OUT are equally long, since they are in the environment, which is on the program's
# stack.
by() {
    NAMES=names OUT=$2 gdb -batch -nx -iex 'set debug-file-directory /none' -ex 'break *main' \
        -ex "run $words < /dev/null > /dev/null 2>&1" -ex 'delete' -x "$tests/$1.py" "${@:3}" \
        > log 2>&1 || { cat log; return 1; }
}

printf -v words '%q ' "$@"
cd "$work"
cp "$program" full  # as long a path as `bare`, so that the stack has the same addresses
"$compiled/ctfd-convert" --lossy --section full with.ctf 2> /dev/null
objcopy --strip-debug with.ctf bare
echo "ctfd-debuginfo: $(spent "$compiled/ctfd-debuginfo" bare it.debug)"
debug=$(size -A -d full | awk '/^\.debug_/ { n += $2 } END { print n }')
echo "bytes: $(stat -c %s it.debug), of the compiler's debug sections $debug"
given="python gdb.objfiles()[0].add_separate_debug_file('$PWD/it.debug')"
asks=(gdb -batch -nx -iex 'set debug-file-directory /none')
echo "gdb alone: $(spent "${asks[@]}" -ex 'whatis main' bare)"
echo "gdb with it: $(spent "${asks[@]}" -ex "$given" -ex 'whatis main' bare)"
for script in dump arguments; do
    for out in first first again; do by $script $out full; done
    by $script third -iex "file bare" -iex "$given"
    python3 "$tests/count.py" first again third
done
echo "load: $(cut -d' ' -f1 /proc/loadavg)"
