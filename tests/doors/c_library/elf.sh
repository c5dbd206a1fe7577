#!/usr/bin/env bash
# Checks what ctf_open returns for ELF files, with programs compiled from elf.c.
# usage: tests/doors/c_library/elf.sh ELF..
# Each ELF is a build of elf.c that can read ELF files: one links libctfd_elf.a, one libctfd.so.
# Writes to the current folder. Needs gcc, objcopy, strip, Python and the compiled ctfd-convert;
# 32-bit files are tested if gcc -m32 works. Prints errors; the status is then 1.
set -eu
top=$(realpath "$(dirname "$0")/../../..")
failed=0

# wanted FILE NAME: checks that each program prints the contents of the file `wanted`, with status 0
# or 1.
wanted() {
    local file=$1 name=$2 elf
    for elf in "${programs[@]}"; do
        timeout 60 "$elf" "$file" "$name" > seen 2>&1 || [ $? = 1 ] || echo "status $?" >> seen
        cmp -s wanted seen || { echo "$elf $file:"; diff wanted seen; failed=1; }
    done
}
programs=("$@")

cat > own.c << 'END'
struct point { int x, y; struct point *next; } first;
static const char *names[3];
long added(struct point *to, int x) { to->x += x; return names[0] != 0; }
int main(void) { return (int)added(&first, 1); }
END
gcc -g -fno-inline -o own own.c
"${CARGO_TARGET_DIR:-$top/clients/rust/target}/release/ctfd-convert" --section own own.with
printf '%s\n' 'model 2, 16 bytes' 'object struct point first' 'object const char *names[3]' \
    'function added, 2 arguments: long' 'function main, 0 arguments: int' | sort > told
for elf in "${programs[@]}"; do
    "$elf" own.with "struct point" | sed 's/long int/long/' | sort > seen
    cmp -s told seen || { echo "$elf own.with:"; diff told seen; failed=1; }
done
# The symbols that strip leaves are never mistaken for those that the types were written for.
strip -o own.bare own.with
echo 'model 2, 16 bytes' > wanted
wanted own.bare 'struct point'

# Nor is a symbol table with more symbols, with fewer, or with a symbol renamed.
cp own.with own.more
objcopy --add-symbol more=.data:0,global,object own.more
strip -K main -K added -K first -o own.less own.with
objcopy --redefine-sym added=other own.with own.other
for file in own.more own.less own.other; do
    wanted $file 'struct point'
done
# A dictionary converted from BTF has its own names of symbols, and the file has no numbers for
# them. So no symbol is listed by number, even if the file has a section called `names`.
gcc -gbtf -fno-inline -c own.c -o own.o
objcopy --dump-section .BTF=own.btf own.o
"${CARGO_TARGET_DIR:-$top/clients/rust/target}/release/ctfd-convert" own.btf own.names
grep -aq 'ctfd.symbols=names,2,2,' own.names || { echo "no names of its own"; failed=1; }
objcopy --add-section .ctf=own.names own own.named
objcopy --add-section .ctf=own.names --add-section names=own.btf own own.both
for file in own.named own.both; do
    wanted $file 'struct point'
done

# Sections under both names, uncompressed and with a compressed body.
python3 - "$top/examples/lua.ctf" << 'END'
import sys, zlib
plain = open(sys.argv[1], "rb").read()
head, body = bytearray(plain[:36]), plain[36:]
head[3] |= 1
small = zlib.compress(body)
open("compressed", "wb").write(bytes(head) + small)
open("cut", "wb").write(bytes(head) + small[:-9])
open("short", "wb").write(bytes(head) + zlib.compress(body[:-1]))
open("long", "wb").write(bytes(head) + zlib.compress(body + b"x"))
head[32:36] = (1 << 30).to_bytes(4, "little")
open("huge", "wb").write(bytes(head) + small)
END
echo 'int none;' > none.c
gcc -c none.c
echo 'model 2, 200 bytes' > wanted
for section in .SUNW_ctf .ctf; do
    for dictionary in "$top/examples/lua.ctf" compressed; do
        objcopy --add-section "$section=$dictionary" none.o with.o
        wanted with.o 'struct lua_State'
    done
done
wanted compressed 'struct lua_State'
echo 'the compressed section does not inflate to what its header says' > wanted
for dictionary in cut short long; do
    wanted $dictionary int
    objcopy --add-section ".ctf=$dictionary" none.o with.o
    wanted with.o int
done
echo 'DictTooBig: more than 67,108,864 bytes' > wanted
wanted huge int
"${programs[0]}" none.o int > wanted || true
grep -q 'has no section .SUNW_ctf or .ctf' wanted || { cat wanted; failed=1; }
wanted none.o int
objcopy --add-section .ctf=own.c none.o with.o
echo 'BadMagic: the first two bytes are no CTF' > wanted
wanted with.o int

# 32-bit programs: the model is ILP32, with pointers of 4 bytes.
if gcc -m32 -g -fno-inline -o own own.c 2> said; then
    "${CARGO_TARGET_DIR:-$top/clients/rust/target}/release/ctfd-convert" --section own own.with32 > said 2>&1 ||
        cat said
    "${programs[0]}" own.with32 "struct point" | head -n 1 > seen
    echo 'model 1, 12 bytes' | cmp -s - seen || { cat seen; failed=1; }
    # A label has the model of a dictionary in a file of its own.
    "${CARGO_TARGET_DIR:-$top/clients/rust/target}/release/ctfd-convert" own own.dict32 > said 2>&1 ||
        cat said
    "${programs[0]}" own.dict32 "struct point" | head -n 1 > seen
    echo 'model 1, 12 bytes' | cmp -s - seen || { cat seen; failed=1; }
fi

# For a damaged file the program prints something and exits with status 0 or 1, whatever is damaged.
python3 - own.with "${programs[0]}" << 'END' || failed=1
import random, subprocess, sys
whole, chance, wrong = open(sys.argv[1], "rb").read(), random.Random(1), 0
table = int.from_bytes(whole[40:48], "little")
for turn in range(60):
    made = bytearray(whole)
    for _ in range(chance.randrange(1, 4)):
        at = chance.choice([chance.randrange(64), chance.randrange(table, len(made)),
                            chance.randrange(len(made))])
        made[at] = chance.choice([0, 255, 128, made[at] ^ 1 << chance.randrange(8)])
    open("damaged", "wb").write(made[:chance.choice([len(made), chance.randrange(len(made))])])
    ended = subprocess.run([sys.argv[2], "damaged", "struct point"], capture_output=True,
                           timeout=60)
    if ended.returncode not in (0, 1) or not ended.stdout:
        print(turn, ended)
        wrong = 1
sys.exit(wrong)
END
exit $failed
