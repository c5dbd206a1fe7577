#!/usr/bin/env bash
# Checks how a built ctfd ends: its exit status, and its output on standard output and standard
# error.
# usage: tests/doors/service/program.sh PROGRAM
# PROGRAM is a built ctfd. Prints a row for each case, which ends in "yes" or in what was wrong; the
# status is 1 if one was wrong. Needs /dev/full and Python.
set -u
program=$(realpath "$1")
examples=$(realpath "$(dirname "$0")/../../../examples")
first=$examples/first.jsonl
work=$(mktemp -d)
trap 'rm -r "$work"' EXIT
failed=0

# expect NAME STATUS OUT ERR: checks the last run, whose outputs are $work/out and $work/err. OUT
# and ERR are patterns that a line must match; an empty one means that nothing was written.
expect() {
    local well=yes
    [ "$status" = "$2" ] || well="status $status"
    check "$3" out || well="standard output"
    check "$4" err || well="standard error"
    printf '%-36s %s\n' "$1" "$well"
    [ "$well" = yes ] || failed=1
}

build='^proved build: rattle-kit-13, logic [0-9a-f]*$\|^quick build: proofs not checked$'

check() {
    if [ -z "$1" ]; then [ ! -s "$work/$2" ]; else grep -q -- "$1" "$work/$2"; fi
}

# ends IN WORD..: runs the program with a file as input.
ends() {
    local input=$1
    shift
    "$program" "$@" < "$input" > "$work/out" 2> "$work/err"
    status=$?
}

# fills IN WORD..: the same, with a full standard output.
fills() {
    local input=$1
    shift
    : > "$work/out"
    "$program" "$@" < "$input" > /dev/full 2> "$work/err"
    status=$?
}

ends /dev/null;                 expect "no command" 2 '' 'Usage'
ends /dev/null bad;             expect "a command that is not there" 2 '' 'bad'
ends /dev/null serve more;      expect "a word without a file" 2 '' '^ctfd: usage: NAME=FILE$'
ends /dev/null $'\xff';         expect "a command that is not UTF-8" 2 '' 'not UTF-8'
ends "$first" serve $'a\xffb';  expect "a word that is not UTF-8" 2 '' 'not UTF-8'
ends /dev/null --help;          expect "help" 0 'Usage' ''
ends /dev/null help;            expect "help, as a command" 0 'Usage' ''
ends /dev/null serve --help;    expect "help of serve" 0 '^Usage: .* \[NAME=FILE\]\.\.\.$' ''
ends /dev/null --help;          expect "help names the statuses" 0 '^  1  a file was refused$' ''
ends /dev/null dump --help;     expect "help of dump names the pages" 0 '^Pages: ctfd(1), ' ''
ends /dev/null --version;       expect "version" 0 '^ctfd [0-9]*\.[0-9]*\.[0-9]*$' ''
ends /dev/null --version;       expect "which build" 0 "$build" ''
ends /dev/null -V;              expect "version, by its letter" 0 '^ctfd [0-9]*\.[0-9]*\.[0-9]*$' ''
fills /dev/null --help;         expect "help, and a full output" 3 '' '^ctfd: Write$'
fills /dev/null --version;      expect "version, and a full output" 3 '' '^ctfd: Write$'
: > "$work/err"
"$program" bad < /dev/null > "$work/out" 2> /dev/full
status=$?;                      expect "usage, and a full standard error" 3 '' ''
ends /dev/null serve;           expect "no lines" 0 '' ''
ends "$first" serve;            expect "the first run" 0 '^{"ok":{"kind":"integer"},"s":7}$' ''
fills /dev/null serve;          expect "no lines, and a full output" 0 '' ''
fills "$first" serve;           expect "the first run, and a full output" 3 '' '^ctfd: Write$'
ends . serve;                   expect "a folder as input" 3 '' '^ctfd: Read$'

# Writes one line, and waits at most a minute for its reply before the input ends.
mkfifo "$work/pipe"
"$program" serve < "$work/pipe" > "$work/all" 2> "$work/err" &
service=$!
exec 3> "$work/pipe"
head -n 1 "$first" >&3
for _ in $(seq 600); do [ -s "$work/all" ] && break; sleep 0.1; done
cp "$work/all" "$work/out"
exec 3>&-
wait $service
status=$?;                      expect "a reply before the next line" 0 \
                                    '^{"ok":{"length":53},"s":7}$' ''

yes '{"s":7,"op":"reset"}' | head -n 200000 > "$work/many"
{ "$program" serve < "$work/many" 2> "$work/err"; echo $? > "$work/status"; } |
    head -n 1 > "$work/out"
status=$(cat "$work/status");   expect "a reader that leaves" 3 '^{"ok":{},"s":7}$' '^ctfd: Write$'

# A session filled to its quota.
"$examples/../tests/doors/service/full_session.py" requests > "$work/full"
"$examples/../tests/doors/service/full_session.py" replies > "$work/full.replies"
ends "$work/full" serve
cmp -s "$work/out" "$work/full.replies" || status="$status, other replies"
                                expect "a session to its quota" 0 \
                                    '^{"ok":{"d":1,"types":1},"s":2}$' ''

# Dumps: of an int; of a child that refers to type 3 of its parent; parents with two and three
# types.
cd "$work" || exit 1
section() { # PARNAME TYPES STRINGS LENGTH-OF-TYPES LENGTH-OF-STRINGS, each in printf's escapes
    # shellcheck disable=SC2059 # the words are escapes
    printf '\xf1\xcf\x02\0\0\0\0\0'"$1"'\0\0\0\0\0\0\0\0\0\0\0\0\0\0\0\0\0\0\0'"$4"'\0\0\0'"$5"'\0\0\0'"$2$3"
}
section '\0' '\x01\0\0\0\0\x0c\x04\0\x20\0\0\x01' '\0int\0' '\x0c' '\x05' > int
section '\x01' '\0\0\0\0\0\x18\x03\0' '\0p\0' '\x08' '\x03' > child
section '\0' '\0\0\0\0\0\x18\0\0\0\0\0\0\0\x18\0\0' '' '\x10' '\0' > two
section '\0' '\0\0\0\0\0\x18\0\0\0\0\0\0\0\x18\0\0\0\0\0\0\0\x18\0\0' '' '\x18' '\0' > three
cp int longest; truncate -s 67108864 longest
cp int long; truncate -s 67108865 long
mkdir folder

# dumps NAME FILE WORD..: checks that `ctfd dump WORD..` prints the contents of FILE.
dumps() {
    local name=$1 file=$2
    shift 2
    ends /dev/null dump "$@"
    cmp -s out "$file" || status="$status, another text"
    expect "$name" 0 '^ctf types=' ''
}
cat > int.dump << 'EOF'
ctf types=1 child=no parname="" parlabel=""
type 1 integer "int" root size=4 encoding=1 offset=0 bits=32 : "int" bytes=4 align=4
EOF
cat > child.dump << 'EOF'
ctf types=1 child=yes parname="p" parlabel=""
type 32769 pointer "" hidden to=3 : "void **" bytes=8 align=8
EOF
sed 's/=8/=4/g' child.dump > short.dump
# A child whose type is a const of its parent's pointer: the model applies to the parent too.
section '\x01' '\0\0\0\0\0\x60\x03\0' '\0p\0' '\x08' '\x03' > const
cat > const.dump << 'EOF'
ctf types=1 child=yes parname="p" parlabel=""
type 32769 const "" hidden to=3 : "void *const" bytes=4 align=4
EOF
dumps "a dump" int.dump int
dumps "a dump over a parent" child.dump child --parent three
dumps "a dump of the default model" child.dump child --parent three --model lp64
dumps "a dump of another model" int.dump int --model ilp32
dumps "short pointers over a parent" short.dump child --model ilp32 --parent three
dumps "short pointers of a parent" const.dump const --model=ilp32 --parent three
dumps "a dump of a real program" "$examples/lua.dump" "$examples/lua.ctf" \
    --sym "$examples/lua.sym" --str "$examples/lua.str"
"$examples/../tests/doors/dump/dump.py" "$examples"/zlib.{ctf,sym,str} > zlib.dump
dumps "a dump of another, by two programs" zlib.dump "$examples/zlib.ctf" \
    --sym "$examples/zlib.sym" --str "$examples/zlib.str"
for of in lua zlib; do
    "$examples/../tests/doors/dump/dump.py" --model ilp32 "$examples/$of".{ctf,sym,str} > short-$of.dump
    dumps "$of with short pointers" short-$of.dump "$examples/$of.ctf" --model ilp32 \
        --sym "$examples/$of.sym" --str "$examples/$of.str"
done
dumps "a file at the limit" int.dump longest

ends /dev/null dump;            expect "a dump of nothing" 2 '' 'CTF'
ends /dev/null dump a b;        expect "a dump of two" 2 '' "'b'"
ends /dev/null dump a --bad b;  expect "an option that is not there" 2 '' '--bad'
ends /dev/null dump a --sym;    expect "an option without its file" 2 '' '--sym'
ends /dev/null dump a --sym b --sym b
                                expect "an option twice" 2 '' '--sym'
ends /dev/null dump int --model lp32
                                expect "a model that is none" 2 '' "'lp32'"
ends /dev/null dump int --model ILP32
                                expect "a model in upper case" 2 '' "'ILP32'"
ends /dev/null dump int --model ''
                                expect "a model without letters" 2 '' '--model'
ends /dev/null dump int --model;
                                expect "an option without its model" 2 '' '--model'
ends /dev/null dump int --model lp64 --model lp64
                                expect "a model twice" 2 '' '--model'
ends /dev/null dump none --model lp32
                                expect "a model before a missing file" 2 '' "'lp32'"
ends /dev/null dump --help;     expect "help of dump" 0 '^Usage: .* <CTF>$' ''
ends /dev/null dump --help;     expect "help of dump tells the models" 0 \
                                    'default: lp64. .possible values: lp64, ilp32.$' ''
ends /dev/null dump none;       expect "a missing file" 3 '' '^ctfd: none: Read$'
ends /dev/null dump '';         expect "a file without a name" 3 '' '^ctfd: : Read$'
ends /dev/null dump folder;     expect "a folder" 3 '' '^ctfd: folder: Read$'
ends /dev/null dump long;       expect "a file above the limit" 1 '' '^ctfd: long: StageFull at 0$'
ends /dev/null dump /dev/zero;  expect "a file without end" 1 '' '^ctfd: /dev/zero: StageFull at 0$'
ends /dev/null dump /dev/null;  expect "an empty file" 1 '' '^ctfd: /dev/null: TooShort at 0$'
ends /dev/null dump int --sym child
                                expect "a refused symbol table" 1 '' '^ctfd: int: BadSymtab at 0$'
ends /dev/null dump child --parent "$first"
                                expect "a refused parent" 1 \
                                    '' '^ctfd: .*first.jsonl: BadMagic at 0$'
ends /dev/null dump child --parent two
                                expect "a parent that is too short" 1 \
                                    '' '^ctfd: child: ParentShort at 3$'
ends /dev/null dump child --parent two --model ilp32
                                expect "short pointers, and a short parent" 1 \
                                    '' '^ctfd: child: ParentShort at 3$'
ends /dev/null dump child --parent child
                                expect "a parent that is a child" 1 \
                                    '' '^ctfd: child: ParentIsChild at 0$'
ends /dev/null dump int --parent two
                                expect "a parent of no child" 1 '' '^ctfd: int: NotChild at 0$'
# Files are read in the order dictionary, parent, symbols, strings, and checked after all are read.
ends /dev/null dump long --parent none
                                expect "a long file before a missing one" 1 \
                                    '' '^ctfd: long: StageFull at 0$'
ends /dev/null dump /dev/null --str c --sym b --parent a
                                expect "the order of files: a parent" 3 '' '^ctfd: a: Read$'
ends /dev/null dump /dev/null --str c --sym b --parent int
                                expect "the order of files: symbols" 3 '' '^ctfd: b: Read$'
ends /dev/null dump /dev/null --str c --sym int
                                expect "the order of files: strings" 3 '' '^ctfd: c: Read$'
fills /dev/null dump int;       expect "a dump, and a full output" 3 '' '^ctfd: Write$'
"$program" dump int 2> err >&-
status=$?;                      expect "a dump, and a closed output" 3 '' '^ctfd: Write$'
"$program" dump "$examples/lua.ctf" --sym "$examples/lua.sym" --str "$examples/lua.str" 2> err |
    head -n 1 > out
status=${PIPESTATUS[0]};        expect "a dump, and a reader that leaves" 141 '^ctf types=526 ' ''
(ulimit -v 32768; "$program" dump longest > out 2> err)
status=$?;                      expect "a dump without memory" 4 '' '^ctfd: Memory$'

# Publications. All words are checked before a file is read. Then each file in turn is checked for
# read errors, its length, the format's rules, and whether its name is taken.
echo '{"s":1,"op":"take","owner":0,"name":"base"}' > take
cp int a=b
section '\0' '\x01\0\0\x80\0\x0c\x04\0\x20\0\0\x01' '' '\x0c' '\0' > outer
found='^{"ok":{"d":1,"types":1},"s":1}$'
name64=$(printf 'n%.0s' $(seq 64))
ends take serve base=int;       expect "a file that is taken" 0 "$found" ''
ends take serve;                expect "no file to be taken" 0 '"NotPublished"' ''
ends take serve other=int;      expect "a file by another name" 0 '"NotPublished"' ''
ends take serve base=child other=two
                                expect "two files" 0 "$found" ''
ends take serve base=a=b;       expect "a file with = in its name" 0 "$found" ''
ends take serve base=longest;   expect "a served file at the limit" 0 "$found" ''
ends take serve "${name64}=int" base=int
                                expect "a name of 64 characters" 0 "$found" ''
ends take serve -- -._=int base=int
                                expect "a name that begins with -" 0 "$found" ''
ends take serve "base=$examples/lua.ctf"
                                expect "a real program to be taken" 0 \
                                    '^{"ok":{"d":1,"types":526},"s":1}$' ''
ends "$examples/meeting.jsonl" serve base=int
cmp -s out "$examples/meeting.replies" || status="$status, other replies"
                                expect "sessions that meet" 0 "$found" ''
"$program" serve < "$examples/draft.jsonl" > out 2> err
status=$?
cmp -s out "$examples/draft.replies" || status="$status, other replies"
                                expect "a dictionary that is made" 0 '"FixedParent"' ''
ends take serve base;           expect "a word without =" 2 '' '^ctfd: usage: NAME=FILE$'
ends take serve =int;           expect "a word without a name" 2 '' '^ctfd: usage: NAME=FILE$'
ends take serve 'a b=int';      expect "a name with a blank" 2 '' '^ctfd: usage: NAME=FILE$'
ends take serve "n$name64=int"; expect "a name of 65 characters" 2 '' '^ctfd: usage: NAME=FILE$'
ends take serve base=none bad;  expect "words before files" 2 '' '^ctfd: usage: NAME=FILE$'
ends take serve --bad;          expect "serve with an option" 2 '' '--bad'
ends take serve base=none;      expect "a served file that is missing" 3 '' '^ctfd: none: Read$'
ends take serve base=;          expect "a served file without a name" 3 '' '^ctfd: : Read$'
ends take serve base=folder;    expect "a folder to be served" 3 '' '^ctfd: folder: Read$'
ends take serve base=long;      expect "a served file above the limit" 1 \
                                    '' '^ctfd: long: StageFull at 0$'
ends take serve base=/dev/zero; expect "a served file without end" 1 \
                                    '' '^ctfd: /dev/zero: StageFull at 0$'
ends take serve base=/dev/null; expect "a served file that is empty" 1 \
                                    '' '^ctfd: /dev/null: TooShort at 0$'
ends take serve base=outer;     expect "names in strings that are not there" 1 \
                                    '' '^ctfd: outer: BadName at 36$'
ends take serve base=take;      expect "a served file of another kind" 1 \
                                    '' '^ctfd: take: BadMagic at 0$'
ends take serve base=int base=two
                                expect "a name twice" 1 '' '^ctfd: two: NameTaken at 0$'
ends take serve base=int base=take
                                expect "a rule before a name" 1 '' '^ctfd: take: BadMagic at 0$'
ends take serve base=int base=long
                                expect "a length before a name" 1 '' '^ctfd: long: StageFull at 0$'
ends take serve base=int base=none
                                expect "a read before a name" 3 '' '^ctfd: none: Read$'
ends take serve a=take b=none;  expect "the first file's fault" 1 '' '^ctfd: take: BadMagic at 0$'
ends take serve a=none b=take;  expect "the first file's read" 3 '' '^ctfd: none: Read$'
fills take serve base=int;      expect "a taken file, and a full output" 3 '' '^ctfd: Write$'
(ulimit -v 32768; "$program" serve base=longest < take > out 2> err)
status=$?;                      expect "a served file without memory" 4 '' '^ctfd: Memory$'
exit $failed
