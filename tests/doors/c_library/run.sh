#!/usr/bin/env bash
# Tests the library for C, its headers and libctf's calls on top of it, against a built ctfd.
# usage: tests/doors/c_library/run.sh PROGRAM [--rounds N]
# Uses the archive that CTFD_ARCHIVE names, by default crates/ctf_c/out/libctfd.a, which
# tests/doors/c_library/archive.py makes. Needs C and C++ compilers, nm, sanitizers and Python; uses
# clang if it is installed.
#
# - The header declares what the crates export, and broken headers are detected
#   (c_library/header.py). libctfd.so beside the archive exports exactly what both headers declare.
# - Both headers compile without warnings as C11 and as C++11.
# - libctfd.so works with an object file that was compiled without our headers, and with ctypes.
# - Dumps through the calls of ctfd.h and through those of libctf equal those of `ctfd dump`: of
#   programs, of a child with its parent, and with pointers of 4 bytes.
# - Questions about each type, member, enumerator, name and symbol get the service's answers, and
#   rows equal the answers of single calls; a visit continues from a child into its parent.
# - A visit of each type gives the same rows through both headers as through GNU libctf with the
#   same types (c_library/peer.py).
# - Lines get the service's replies, also as lines of a session, with any number or none; a million
#   sessions that come and go leak no memory.
# - A refused call writes no result and closes nothing, also if an allocation is refused.
# - Questions about dictionaries that were made to be expensive take time linear in their bytes, and
#   a visit time linear in its rows: twice as many types, names or rows take at most 2.2 times the
#   instructions, as valgrind counts them.
# - ELF files are opened, if libelf and zlib are installed (c_library/elf.sh).
# - Damaged dictionaries, damaged lines and random calls, and walks of libctf's calls over random
#   dictionaries, run under AddressSanitizer and UndefinedBehaviorSanitizer: N rounds (10000), and
#   N/10 of the walks.
# Prints errors and counts; the status is 1 if there was an error.
set -eu
program=$(realpath "$1")
shift
rounds=10000
[ "${1:-}" = --rounds ] && rounds=$2
top=$(realpath "$(dirname "$0")/../../..")
tests=$top/tests/doors/c_library
for tool in cc nm; do
    command -v $tool > /dev/null || { echo "skipped: no $tool here"; exit 0; }
done
archive=$("$top/tests/doors/c_library/archive.py" --kept)
[ -f "$archive" ] || { echo "$archive"; exit 0; }
work=$(mktemp -d)
trap 'rm -r "$work"' EXIT
cd "$work"
. "$top/tests/doors/counting.sh"
libraries=$(dirname "$archive")
# Linker flags of the part for ELF files, for programs that link the archive.
elf=()
[ ! -f "$libraries/libctfd_elf.a" ] ||
    elf=(-Wl,-u,ctfd_elf_read "$libraries/libctfd_elf.a" -lelf -lz)

# compile SOURCE OUT FLAGS..: compiles a program as users of the headers may; warnings are errors.
compile() {
    local source=$1 out=$2
    shift 2
    cc -std=gnu11 -O2 -Wall -Wextra -Wpedantic -Werror -I"$top/clients/c" "$@" "$source" \
        "$archive" "${elf[@]}" -o "$out"
}

# same WANTED SEEN: compares two files, and prints the first lines that differ.
same() {
    cmp -s "$1" "$2" || { diff "$1" "$2" | head -n 20; return 1; }
}

# twice WHAT N: counts the instructions of `hostile WHAT` for N and for twice as many; fails if the
# second takes more than 2.2 times the first.
twice() {
    local n counted=()
    for n in "$2" $((2 * $2)); do
        counted+=("$(valgrind --tool=callgrind --callgrind-out-file=/dev/null ./hostile "$1" "$n" \
            2>&1 | sed -n 's/.*Collected : //p')")
    done
    echo "$1, $2 and twice as many: ${counted[*]} instructions"
    [ $((10 * counted[1])) -le $((22 * counted[0])) ]
}

count "the header and the crates" "$tests/header.py" "$archive"

for header in ctfd ctfd_libctf; do
    printf '#include "%s.h"\nint main(void) { return ctfd_status_name(CTFD_OK)[0] != 79; }\n' \
        $header > $header.c
    cp $header.c $header.cc
    flags=(-Wall -Wextra -Wpedantic -Werror -I"$top/clients/c")
    count "$header.h in C" cc -std=c11 -Wconversion -Wshadow "${flags[@]}" $header.c -o $header
    count "$header.h names its statuses" ./$header
    command -v clang > /dev/null && count "$header.h by clang" \
        clang -std=c11 "${flags[@]}" -c $header.c -o $header.o
    if command -v c++ > /dev/null; then
        count "$header.h in C++" c++ -std=c++11 "${flags[@]}" $header.cc -o $header
    else
        echo "skipped: no C++ compiler here"
    fi
done

printf '#include "ctfd_libctf.h"\n#include <stdio.h>\nint main(void) { puts(ctf_build()); }\n' \
    > build.c
prepare "compile build.c" compile build.c build
count "the library says which build it is" \
    sh -c './build | grep -q "^proved build: rattle-kit-\|^quick build: proofs not checked$"'

for name in dump answers rows visits lines sessions refusals refuse libctf hostile; do
    prepare "compile $name.c" compile "$tests/$name.c" $name
done
for name in ctfdump first; do
    prepare "compile $name.c" compile "$top/examples/c/$name.c" $name
done

# Programs that link libctfd.so.
shared=(-L"$libraries" -lctfd "-Wl,-rpath,$libraries")
prepare "compile unchanged.c" cc -std=c11 -D_DEFAULT_SOURCE -O2 -Wall -Wextra -Werror \
    -c "$tests/unchanged.c" -o unchanged.o
echo '200 bytes, 24 members' > wanted
prepare "link it with libctfd.so" cc unchanged.o "${shared[@]}" -o unchanged
./unchanged "$top/examples/lua.ctf" > seen || true
count "run it" same wanted seen
prepare "link it with the archive" cc unchanged.o "$archive" -o unchanged
./unchanged "$top/examples/lua.ctf" > seen || true
count "run it again" same wanted seen
python3 "$tests/foreign.py" "$libraries/libctfd.so" "$top/examples/lua.ctf" > seen || true
count "the same by ctypes" same wanted seen
cc -std=gnu11 -O2 -I"$top/clients/c" "$tests/libctf.c" "${shared[@]}" -o libctf_shared
mkdir shared
count "libctf's calls of libctfd.so" ./libctf_shared "$top/examples" shared

if [ ${#elf[@]} = 0 ]; then
    echo "skipped: no part for ELF files was made here (Debian: libelf-dev zlib1g-dev)"
else
    prepare "compile elf.c" compile "$tests/elf.c" elf
    prepare "compile elf.c with libctfd.so" cc -std=gnu11 -I"$top/clients/c" "$tests/elf.c" \
        "${shared[@]}" -o elf_shared
    mkdir elf_files
    elves=("$work/elf" "$work/elf_shared")
    count "ELF files" sh -c "cd elf_files && '$tests/elf.sh' ${elves[*]}"
    cc -std=gnu11 -I"$top/clients/c" "$tests/elf.c" "$archive" -o elf_less
    ./elf_less "$work/elf" int > seen || true
    count "without the part for ELF files" grep -q 'link libctfd_elf' seen
fi

# A child and its parent, written by the service.
"$program" serve > made << 'END'
{"s":1,"op":"create"}
{"s":1,"op":"add","d":1,"what":"integer","name":"int","encoding":1,"offset":0,"bits":32,"size":4}
{"s":1,"op":"add","d":1,"what":"struct","name":"base"}
{"s":1,"op":"add","d":1,"what":"member","t":2,"name":"x","type":1}
{"s":1,"op":"add","d":1,"what":"forward","name":"later","tag":"union"}
{"s":1,"op":"add","d":1,"what":"array","contents":1,"index":1,"count":3}
{"s":1,"op":"update","d":1}
{"s":1,"op":"create","parent":1,"parname":"base","parlabel":"v\\x22"}
{"s":1,"op":"add","d":2,"what":"pointer","type":2}
{"s":1,"op":"add","d":2,"what":"function","type":1,"args":[32769,0],"name":"f"}
{"s":1,"op":"add","d":2,"what":"union","name":"u"}
{"s":1,"op":"add","d":2,"what":"member","t":32771,"name":"b","type":2}
{"s":1,"op":"add","d":2,"what":"enum","name":"e","root":false}
{"s":1,"op":"add","d":2,"what":"enumerator","t":32772,"name":"a\\xff","value":-7}
{"s":1,"op":"add","d":2,"what":"unknown"}
{"s":1,"op":"add","d":2,"what":"label","name":"one","last":32770}
{"s":1,"op":"add","d":2,"what":"label","name":"","last":7}
{"s":1,"op":"update","d":2}
{"s":1,"op":"bytes","d":1,"from":0,"count":9999}
{"s":1,"op":"bytes","d":2,"from":0,"count":9999}
END
tail -n 2 made | python3 -c '
import json, sys
for name, line in zip(("parent", "child"), sys.stdin):
    open(name + ".ctf", "wb").write(bytes.fromhex(json.loads(line)["ok"]["bytes"]))'

# Removes the size in an array's record, which no call returns.
without_sizes() {
    sed -E 's/^(type [0-9]+ array .*) size=[0-9]+ :/\1 :/'
}

# Spells an array of pointers that is qualified as a whole as C does, and libctf's calls do: in a
# dump the array's `const` comes first.
as_c() {
    sed -E 's/"const const (\w+ \*const \[)/"const \1/; t
        s/^(type [0-9]+ const .*)"const char (\*const \[10\])/\1"char \2/'
}

# dumped NAME CTF WORDS..: compares the C program's dump with that of `ctfd dump CTF WORDS..`.
dumped() {
    local name=$1 ctf=$2
    shift 2
    "$program" dump "$ctf" "$@" | without_sizes > wanted
    # shellcheck disable=SC2046 # the words one by one
    ./dump "$ctf" $(printf '%s\n' "$@" | sed '/^--model$/d; s/^ilp32$/--ilp32/') > seen
    count "dump of $name" same wanted seen
}
for name in lua zlib; do
    dumped $name "$top/examples/$name.ctf" --sym "$top/examples/$name.sym" \
        --str "$top/examples/$name.str"
    ./ctfdump "$top"/examples/$name.{ctf,sym,str} > seen
    as_c < wanted > wanted_c
    count "ctfdump of $name" same wanted_c seen
    ./answers "$top"/examples/$name.{ctf,sym,str} | sort > seen
    "$tests/answers.py" "$program" "$top"/examples/$name.{ctf,sym,str} | sort > wanted
    count "answers of $name: $(wc -l < wanted)" same wanted seen
    ./answers "$top"/examples/$name.{ctf,sym,str} lent | sort > seen
    count "answers of $name, lent" same wanted seen
    count "rows of $name" ./rows "$top"/examples/$name.{ctf,sym,str}
done
count "rows of a child on its parent" ./rows child.ctf /dev/null /dev/null parent.ctf
count "rows of what libctf wrote" ./rows "$top/examples/written.ctf" /dev/null /dev/null
count "enough was asked" [ "$(wc -l < wanted)" -gt 1000 ]
dumped "lua, pointers of 4 bytes" "$top/examples/lua.ctf" --model ilp32
dumped written "$top/examples/written.ctf"
dumped "a child" child.ctf
dumped "a child on its parent" child.ctf --parent parent.ctf
"$program" dump parent.ctf | without_sizes > wanted
./ctfdump parent.ctf > seen
count "ctfdump of a parent" same wanted seen

for file in "$top"/examples/*.jsonl; do
    "$program" serve < "$file" > wanted
    ./lines < "$file" > seen
    count "the lines of ${file##*/}" same wanted seen
done

count sessions ./sessions "$top/examples" 1000000 "$top"/examples/*.jsonl

echo 'struct lua_State: 200 bytes' > wanted
(cd "$top" && "$work/first") > seen
count "the first example" same wanted seen
count "visits in a child" ./visits

if echo '#include <ctf-api.h>' | cc -E - > /dev/null 2>&1; then
    prepare "compile peer.c for rows" compile "$tests/peer.c" peer_rows -DROWS
    prepare "compile peer.c for libctf's calls" compile "$tests/peer.c" peer_calls
    prepare "compile peer.c for GNU libctf" cc -std=gnu11 -O2 -Wall -Wextra -Wpedantic -Werror -DGNU \
        "$tests/peer.c" -lctf-nobfd -o peer_gnu
    for name in lua zlib; do
        prepare "the types of $name by GNU libctf" \
            "$tests/peer.py" "$program" "$top/examples/$name.ctf" .
        ./peer_gnu gnu.ctf < theirs > wanted || true
        for door in rows calls; do
            ./peer_$door "$top/examples/$name.ctf" < ours > seen || true
            count "visits in $name by $door, beside GNU libctf's" same wanted seen
        done
        count "enough was visited" [ "$(grep -c '^  ' wanted)" -gt 400 ]
    done
else
    echo "skipped: no GNU libctf here (Debian: binutils-dev)"
fi

count refusals ./refusals "$top/examples"
count "libctf's calls" ./libctf "$top/examples" "$work"
count "what was made to cost much" timeout 60 ./hostile
if command -v valgrind > /dev/null; then
    count "a circle of types" twice circle 16383
    count "names that have one hash" twice names 25575
    count "a visit that ends nowhere" twice visit 20000
else
    echo "skipped: no valgrind here"
fi
count "refused allocations" ./refuse "$top/examples"
grep -v ' checks, ' said || true

sanitize=(-g -O1 -fsanitize=address,undefined -fno-sanitize-recover=all)

# looked_into PREFIX FLAGS..: compiles libctf's calls with sanitizers, without the part for ELF
# files.
looked_into() {
    local prefix=$1 source
    shift
    for source in "$top"/clients/c/libctf/*.c; do
        case $source in */elf.c | */loading.c) continue ;; esac
        cc -std=c11 "${sanitize[@]}" "$@" -I"$top/clients/c" -c "$source" \
            -o "${prefix}_$(basename "$source" .c).o"
    done
}

echo 'int main(void) { return 0; }' > none.c
if cc "${sanitize[@]}" none.c -o none 2> said && ./none 2>> said; then
    # libctf's calls are compiled again, so that sanitizers check them too.
    looked_into checked
    for name in fuzz refusals libctf; do
        prepare "compile $name.c with sanitizers" compile "$tests/$name.c" $name "${sanitize[@]}" \
            checked_*.o
    done
    count "fuzz under sanitizers" ./fuzz "$top/examples" "$rounds"
    cat said
    count "refusals under sanitizers" ./refusals "$top/examples"
    count "libctf's calls under sanitizers" ./libctf "$top/examples" "$work"
    # Here the calls cache only 2000 bytes, so caches are often emptied.
    looked_into forgetful -DMOST_BYTES=2000
    prepare "compile walks.c" cc -std=gnu11 -Wall -Wextra -Wpedantic -Werror "${sanitize[@]}" \
        -I"$top/clients/c" "$tests/walks.c" forgetful_*.o "$archive" -o walks \
        -Wl,--wrap=malloc,--wrap=calloc,--wrap=realloc
    count "walks under sanitizers" ./walks $((rounds / 10))
    cat said
else
    echo "skipped: no sanitizers here"
fi
tell c_library
