#!/usr/bin/env bash
# Compares what ctfd-show prints about a process and its core file with what gdb prints with the
# compiler's debug information.
# usage: tests/doors/show/run.sh
# Needs gdb, gcc, objcopy and the compiled commands, and permission to attach to a process; if one
# is missing, says so and exits with status 0.
#
# show/table.c is compiled with debug information, its types are converted to CTF, and the debug
# information is removed. It runs, and each line of show/expressions.txt is evaluated: by gdb, which
# is attached and has the file with debug information, and by ctfd-show, for the process and for the
# core file that gdb writes. The same for a 32-bit program, if gcc and the machine support it, and
# for a program with debug information, which ctfd-show converts. show/kinds.c has values of every
# kind, for the expressions in show/kinds.txt. Each expression that cannot be evaluated must yield
# one line and status 2.
# Prints errors and counts; the status is 1 if there was an error.
set -eu
top=$(realpath "$(dirname "$0")/../../..")
tests=$top/tests/doors/show
for tool in gdb gcc objcopy; do
    command -v "$tool" > /dev/null || { echo "skipped: no $tool here"; exit 0; }
done
work=$(mktemp -d)
pid=
trap '[ -z "$pid" ] || kill $pid; rm -r "$work"' EXIT
cd "$work"
export LC_ALL=C
. "$top/tests/doors/counting.sh"

# client COMMAND WORD..: runs a compiled command.
client() {
    "${CARGO_TARGET_DIR:-$top/clients/rust/target}/release/$1" "${@:2}"
}

shows() {
    client ctfd-show "$@"
}

# nobody COMMAND..: runs a command as a user who owns nothing.
nobody() {
    setpriv --reuid 65534 --regid 65534 --clear-groups "$@"
}

# refused TEXT COMMAND WORD..: checks that the command prints one line that matches TEXT, and has
# status 2. COMMAND is `shows`, or ctfd-show run by another user.
refused() {
    local text=$1 status=0
    shift
    "$@" > told 2>&1 < /dev/null || status=$?
    [ $status = 2 ] && [ "$(wc -l < told)" = 1 ] && grep -Eq "$text" told && return
    echo "status $status:"
    cat told
    return 1
}

# waits NAME: starts a program, and returns when it is ready; $pid is its process.
waits() {
    rm -f "$1.out"
    mkfifo "$1.out"
    "./$1" < /dev/null > "$1.out" &
    pid=$!
    read -r _ < "$1.out"
}

# made NAME WORD..: compiles NAME.g with debug information, by gcc with the words, and makes NAME,
# which has CTF instead.
made() {
    local name=$1
    shift
    gcc -g -O1 -o "$name.g" "$@" "$tests/table.c" &&
        client ctfd-convert --lossy --section "$name.g" "$name.ctf" &&
        objcopy --strip-debug "$name.ctf" "$name"
}

# asks NAME: gets gdb's answers about the process $pid, with the compiler's debug information, and
# writes a core file.
asks() {
    gdb -batch -nx -iex 'set debug-file-directory /none' -ex 'set width 0' "${questions[@]}" \
        -ex 'generate-core-file core' -p $pid "${1%.g}.g" > seen 2>&1 < /dev/null || true
    sed -n 's/^\$[0-9]* = //p' seen > gdbs
    [ "$(wc -l < gdbs)" = ${#asked[@]} ]
}

mapfile -t asked < "$tests/expressions.txt"
questions=()
for one in "${asked[@]}"; do questions+=(-ex "print $one"); done
made table > said 2>&1
waits table
if ! asks table; then
    echo "not possible here: gdb attaches to no process"
    cat seen
    exit 0
fi

# same WORD..: checks that ctfd-show with these words prints gdb's answers.
same() {
    client ctfd-show "$@" -- "${asked[@]}" > ours && diff gdbs ours
}

# beside NAME: compares gdb with ctfd-show, for a running program and its core file.
beside() {
    waits "$1"
    prepare "$1, which gdb reads" asks "$1"
    count "its process" same --pid $pid
    count "its core file" same --core core
    kill $pid
    pid=
}

# told TEXT WORD..: checks that ctfd-show with these words prints exactly TEXT, with status 0.
told() {
    local text=$1
    shift
    shows "$@" > ours && [ "$(cat ours)" = "$text" ] && return
    cat ours
    return 1
}

count "a process" same --pid $pid
count "its core file" same --core core
prepare "a list" eval "client ctfd-show --pid $pid --list next head > ours"
count "of three nodes" [ "$(cut -d' ' -f1,3-5 ours | tr -d '\n')" = \
    "[0] {number = 10,[1] {number = 20,[2] {number = 30," ]
count "a list of links" \
    eval "client ctfd-show --core core --list in --of 'struct node' all > ours"
count "of two nodes" [ "$(cut -d' ' -f1,3-5 ours | tr -d '\n')" = \
    "[0] {number = 10,[1] {number = 20," ]
count "a sum in hexadecimal" told 0x14 --pid $pid --hex 'head->number * 2'
count "few elements" told '{7, 8...}' --pid $pid --elements 2 fixed
count "an enumerator" told 'GREEN' --pid $pid GREEN
count "two looks at what does not change" told 'head->number = 10' \
    --pid $pid --watch 0.01 --count 2 'head->number'
count "the other expressions" eval \
    "! shows --pid $pid --keep-going nothing 'head->number' > ours && [ \$(cat ours) = 10 ]"
while IFS='~' read -r expression text; do
    count "$expression" refused "$text" shows --pid $pid "$expression"
done < "$tests/refused.txt"
count "no such name" refused 'nothing: no file of process .* has a function or variable nothing$' \
    shows --pid $pid nothing
count "no such type" refused 'there is no type struct nod; did you mean struct node,' shows --pid $pid '*(struct nod *) 4096'
count "no memory" refused 'no memory at 0x10 that can be read$' \
    shows --pid $pid '*(struct node *) 16'
count "a register" refused '[$]rip: registers are not read' shows --pid $pid '$rip'
count "no process" refused 'there is no process 4194304$' shows --pid 4194304 first
count "no core file" refused 'table: an ELF file that is no core file$' shows --core table first
head -c 9000 core > ./cut
count "a core file that is cut off" refused 'cut' shows --core cut first

# Another user may not read the process. The command is a copy that all users may run.
if [ "$(id -u)" = 0 ] && command -v setpriv > told; then
    mkdir open
    cp "${CARGO_TARGET_DIR:-$top/clients/rust/target}/release/ctfd-show" open
    chmod -R a+rX .
    count "another user's process" refused "process $pid may not be read: .* by its owner" \
        nobody open/ctfd-show --pid $pid first
else
    echo "not possible here: root alone is another user, by setpriv"
fi

# The program is replaced while it runs: its process is read, but its core file is refused.
gcc -g -O0 -o other.g "$tests/table.c"
client ctfd-convert --lossy --section other.g other > said 2>&1
cp --remove-destination other table
count "a program that was replaced" same --pid $pid
count "of a core file" refused 'table is another build than what core has in memory' \
    shows --core core first
count "which names one" same --core core --program table.ctf
count "types of another build" refused 'other is of another build than' \
    shows --pid $pid --types other first
kill $pid
pid=

# A 32-bit program: the service reads no 32-bit symbols, so the client passes wider ones.
if ! echo 'int main(void) { return 0; }' | gcc -m32 -x c - -o none 2> told; then
    cat told
    echo "skipped: gcc -m32 makes no program here (Debian: gcc-multilib)"
elif ! ./none; then
    echo "not possible here: a program of 32 bits does not run"
else
    prepare "a program of 32 bits" made table32 -m32
    waits table32
    prepare "which gdb reads" asks table32
    count "its process" same --pid $pid
    count "its core file" same --core core
    prepare "its list" eval "client ctfd-show --pid $pid --list next head > ours"
    count "of three nodes" [ "$(cut -d' ' -f1,3-5 ours | tr -d '\n')" = \
        "[0] {number = 10,[1] {number = 20,[2] {number = 30," ]
    kill $pid
    pid=
fi

# A program with debug information, which is converted when it is asked about; values of every kind.
beside table.g
mapfile -t asked < "$tests/kinds.txt"
questions=()
for one in "${asked[@]}"; do questions+=(-ex "print $one"); done
gcc -g -w -o kinds.g "$tests/kinds.c"
beside kinds.g

# A separate file of types, for a program that has none.
strip -o table table.g
client ctfd-convert --lossy table.g types > said 2>&1
waits table
count "no types" refused 'no file of process .* has CTF: name one with its types' \
    shows --pid $pid first
address=$(client ctfd-show --pid $pid --types table.ctf '&first')
address=${address##*) }
count "types of the program before it was stripped" \
    eval "client ctfd-show --pid $pid --types table.ctf 'head->next->number' | grep -qx 20"
prepare "types alone, with an address" eval "client ctfd-show --pid $pid --types types \
    '((struct node *) ${address%% *})->number' 2> lines | grep -qx 10"
told='ctfd-show: types: the file was linked, stripped or changed after its types were written'
count "and no symbols" grep -q "$told" lines
tell show
