#!/usr/bin/env bash
# Tests dictionaries in the making, through both libctf headers, with a built library.
# usage: tests/doors/c_library/making.sh [--rounds N]
# Uses the archive that CTFD_ARCHIVE names, by default crates/ctf_c/out/libctfd.a. Needs a C
# compiler with sanitizers; for comparisons GNU libctf (Debian's binutils-dev); for binutils' own
# tests the compiled ctfd-convert and Debian's sources.
#
# - Random additions through libctf's calls, and the same through ctfd.h: the numbers, refusals,
#   answers and bytes are equal.
# - Random additions, updates, discards, deletions and promotions in a parent and its child: the
#   written bytes, when opened, give the same answers.
# - Random calls of GNU's header print the same with libctfd as with GNU's own library.
# - Copies of all types of a dictionary. Opened children of a parent in the making. Each allocation
#   refused in turn. Eight threads.
# - What libdtrace, mdb and gdb do with dictionaries: tests/doors/c_library/making/idioms.
# - binutils' own tests of libctf, unchanged.
# All but the threads and binutils' tests run under AddressSanitizer and UndefinedBehaviorSanitizer.
# The default of N is 300. Prints errors and counts; the status is 1 if there was an error.
set -eu
rounds=300
[ "${1:-}" = --rounds ] && rounds=$2
top=$(realpath "$(dirname "$0")/../../..")
making=$top/tests/doors/c_library/making
command -v cc > /dev/null || { echo "skipped: no cc here"; exit 0; }
archive=$("$top/tests/doors/c_library/archive.py" --kept)
[ -f "$archive" ] || { echo "$archive"; exit 0; }
work=$(mktemp -d)
trap 'rm -r "$work"' EXIT
cd "$work"
failed=0

# run WHAT COMMAND..: runs a command, shows the end of its output, and notes a failure in $failed.
run() {
    local what=$1 status=0
    shift
    "$@" > said 2>&1 || status=$?
    tail -n 25 said
    [ $status = 0 ] || { failed=1; echo "$what: status $status"; }
}

# Only the proved crates; the C layer is compiled below, with sanitizers.
cp "$archive" crates.a
mapfile -t old < <(ar t crates.a | grep '^libctf_')
ar d crates.a "${old[@]}"
layer=()
for source in "$top"/clients/c/libctf/*.c; do
    case $source in */elf.c | */loading.c) ;; *) layer+=("$source") ;; esac
done
warned=(-std=gnu11 -g -O1 -Wall -Wextra -Wpedantic -Werror '-DCTFD_BUILD="a test"')
sanitized=(-fsanitize=address,undefined -fno-sanitize-recover=all)

# compile_layer FLAGS..: compiles the C layer into layer.a.
compile_layer() {
    rm -rf objects layer.a
    mkdir objects
    for source in "${layer[@]}"; do
        cc "${warned[@]}" "$@" -I"$top/clients/c" -c "$source" -o "objects/$(basename "$source").o"
    done
    ar rcs layer.a objects/*.o
}

# program NAME FLAGS..: compiles a test that includes illumos' header.
program() {
    local name=$1
    shift
    cc "${warned[@]}" -I"$top/clients/c" "$@" "$making/$name.c" layer.a crates.a -lpthread \
        -o "$(basename "$name")"
}

compile_layer -fsanitize=thread
program threads -fsanitize=thread
run threads ./threads
compile_layer "${sanitized[@]}"
for name in beside_ctfd reopened copied children idioms/mdb idioms/dtrace; do
    program "$name" "${sanitized[@]}"
done
program refused "${sanitized[@]}" -Wl,--wrap=malloc,--wrap=calloc,--wrap=realloc
run "beside ctfd.h" ./beside_ctfd "$rounds" 1
run reopened ./reopened "$rounds" 1
run copied ./copied "$top/examples/lua.ctf"
run children ./children
run refused ./refused "$top/examples/lua.ctf"
run mdb sh -c "./mdb '$top/examples/lua.ctf' | cmp - '$making/idioms/mdb.txt'"
run dtrace sh -c "./dtrace | cmp - '$making/idioms/dtrace.txt'"

# gnu NAME: compiles a test that includes GNU's header: gnu_ours with libctfd, gnu_theirs with GNU's
# own library.
gnu() {
    cc "${warned[@]}" "${sanitized[@]}" -I"$top/clients/c/gnu" -c "$making/$1.c" -o gnu.o
    cc "${sanitized[@]}" gnu.o layer.a crates.a -o gnu_ours
    cc -w -DGNU "$making/$1.c" -lctf-nobfd -o gnu_theirs
}

if echo '#include <ctf-api.h>' | cc -E - > /dev/null 2>&1; then
    gnu beside_gnu
    ./gnu_theirs "$rounds" 1 > theirs
    run "beside GNU's library" sh -c "./gnu_ours $rounds 1 | diff theirs -"
    echo "beside GNU's library: $(wc -l < theirs) lines"
    gnu idioms/ctfread
    ./gnu_theirs > theirs
    run ctfread sh -c './gnu_ours | diff theirs -'
    gnu idioms/symbols
    ./gnu_theirs > theirs
    run symbols sh -c './gnu_ours | diff theirs -'
    gnu idioms/dump
    ./gnu_theirs | sed 's/int (\*) ()/int ()/' > theirs # C's spelling
    run dump sh -c './gnu_ours | diff theirs -'
    cc -w -DGNU "$making/idioms/dtrace.c" -lctf-nobfd -o gnu_theirs
    ./gnu_theirs > theirs
    run "dtrace beside GNU's library" diff theirs "$making/idioms/dtrace.txt"
else
    echo "skipped: GNU libctf is not here (Debian's binutils-dev)"
fi
convert=${CARGO_TARGET_DIR:-$top/clients/rust/target}/release/ctfd-convert
if [ -x "$convert" ]; then
    run binutils "$making/binutils.py" "$(dirname "$archive")" "$convert"
else
    echo "skipped: the compiled ctfd-convert is not here"
fi
exit $failed
