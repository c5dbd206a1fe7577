#!/usr/bin/env bash
# Compares gdb's answers about programs with the debug files of ctfd-debuginfo and with the
# compiler's debug information.
# usage: tests/doors/debuginfo/run.sh PROGRAM
# PROGRAM is a built ctfd. Needs gdb with Python, gcc, objcopy, llvm-dwarfdump, Python, the compiled
# commands, and the libraries of Debian's libstb-dev and libpng-dev. 32-bit programs need
# gcc-multilib; lldb and drgn are tested too if they are installed.
#
# The programs are other people's code: the libraries of libstb-dev in one program (as PIE, for 32
# bits, and as a shared library), and pngtest.c of libpng-dev (at fixed addresses). Each is compiled
# with debug information, its types are converted to CTF, and the debug information is removed. Then
# gdb answers questions about all structs, unions, enums, typedefs, global variables and functions
# of the running program, with both kinds of debug information (debuginfo/dump.py, compare.py);
# debuginfo/known.txt names what may differ. llvm-dwarfdump verifies the debug files, and converted
# back they have the same types. Arguments of all classes have the values that a program passes
# (debuginfo/passing.c, passing.txt). gdb attaches to a process, and reads its core file. `ctf load`
# of the plug-in gives gdb the same types, by a file that it caches.
# Prints errors and counts; the status is 1 if there was an error.
set -eu
program=$(realpath "$1")
top=$(realpath "$(dirname "$0")/../../..")
compiled=${CARGO_TARGET_DIR:-$top/clients/rust/target}/release
tests=$top/tests/doors/debuginfo
for tool in gdb gcc objcopy llvm-dwarfdump; do
    command -v "$tool" > /dev/null || { echo "skipped: no $tool here"; exit 0; }
done
for file in /usr/include/stb/stb_image.h /usr/share/doc/libpng-dev/examples/pngtest.c; do
    [ -f "$file" ] || { echo "skipped: no $file here (Debian: libstb-dev libpng-dev)"; exit 0; }
done
gdb -batch -nx -ex run --args true 2> /dev/null | grep -q 'exited normally' ||
    { echo "not possible here: gdb runs no program"; exit 0; }
work=$(mktemp -d)
trap 'rm -r "$work"' EXIT
cd "$work"
export CTFD=$program LC_ALL=C
. "$top/tests/doors/counting.sh"

# client COMMAND WORD..: runs a compiled command.
client() {
    "$compiled/$1" "${@:2}"
}

# made NAME WORD..: compiles NAME.g with debug information, by gcc with the words, and makes from it
# NAME without debug information, and NAME.debug. $model names the data model, by default lp64.
made() {
    local name=$1 model=${model:-lp64}
    shift
    gcc -g -O1 -w -o "$name.g" "$@"
    client ctfd-convert --lossy --section "$name.g" "$name.ctf" > said 2>&1 ||
        { cat said; return 1; }
    objcopy --strip-debug "$name.ctf" "$name"
    prepare "the debug file of $name" client ctfd-debuginfo "$name" "$name.debug"
    count "$name.debug is right" llvm-dwarfdump --verify "$name.debug"
    client ctfd-convert --lossy "$name.debug" back.ctf > said 2>&1 || cat said
    count "$name converted back" same_types --model "$model" "$name" back.ctf
}

# same_types OLD NEW: checks that their types are equal.
# A debug file has no types of functions and objects. Only the message that these are not compared,
# with status 2, is accepted.
same_types() {
    local status=0
    client ctfd-diff "$@" > differ 2> left || status=$?
    grep -vE 'types of functions and objects, so they are not compared$|symbols are left out$' left |
        grep -v 'all types are compared$' >> differ || true
    [[ $status = [02] && ! -s differ ]] || { cat differ; return 1; }
}

# says_160 DEBUG: checks that drgn knows the size of a struct from a debug file alone.
says_160() {
    [ "$(/usr/bin/python3 -c '
import drgn, sys
flags = drgn.PlatformFlags.IS_LITTLE_ENDIAN | drgn.PlatformFlags.IS_64_BIT
program = drgn.Program(drgn.Platform(drgn.Architecture.X86_64, flags))
program.load_debug_info(sys.argv[1:])
print(drgn.sizeof(program.type("struct stbtt_fontinfo")))' "$1")" = 160 ]
}

# says_6 PID DEBUG: checks that drgn reads a variable of a process; its program has fixed addresses.
says_6() {
    [ "$(/usr/bin/python3 -c '
import drgn, sys
program = drgn.program_from_pid(int(sys.argv[1]))
program.load_debug_info(sys.argv[2:])
print(program["first"].next.y.value_())' "$@")" = 6 ]
}

# added NAME [DEBUG]: prints the gdb command that adds NAME.debug or DEBUG.debug to the file NAME.
added() {
    echo "python next(it for it in gdb.objfiles() if it.filename.endswith('/$1'))" \
        ".add_separate_debug_file('$work/${2:-$1}.debug')"
}

# asked OUT PROGRAM WORD..: writes dump.py's answers to OUT, from gdb with the words.
asked() {
    local out=$1 file=$2
    shift 2
    NAMES=names OUT=$out gdb -batch -nx -iex 'set debug-file-directory /none' "$@" \
        -x "$tests/dump.py" "$file" > log 2>&1
}

# compared NAME: compares both kinds of debug information, at the start of main.
compared() {
    local name=$1
    rm -f names
    asked first "$name.g"
    for out in first again; do asked $out "$name.g" -ex 'break *main' -ex run; done
    asked ours "$name" -ex "$(added "$name")" -ex 'break *main' -ex run
    "$tests/compare.py" "$tests/known.txt" first again ours
}

# compared_as_is NAME: compares both kinds of debug information, of a file that does not run.
compared_as_is() {
    local name=$1
    rm -f names
    for out in first first again; do asked $out "$name.g"; done
    asked ours "$name" -ex "$(added "$name")"
    "$tests/compare.py" "$tests/known.txt" first again ours
}

# taken NAME: checks that gdb shows the passed values of arguments at the start of each function.
taken() {
    local name=$1
    rm -f names
    asked first "$name.g"
    NAMES=names OUT=ours gdb -batch -nx -iex 'set debug-file-directory /none' \
        -ex "$(added "$name")" -ex 'break *main' -ex run -ex delete -x "$tests/arguments.py" \
        "$name" > log 2>&1
    sed -nE 's/\\"/"/g; s/0x[0-9a-f]+ //; s/^ *"(.* [0-9]+)": "(.*)",?$/\1: \2/p' ours |
        sed 's/\\\\/\\/g' | diff "$tests/passing.txt" -
}

made stb "$tests/stb.c" -lm
count "stb" compared stb
grep same said
made png -no-pie -fno-pie /usr/share/doc/libpng-dev/examples/pngtest.c -lpng
count "png" compared png
grep same said
made passing "$tests/passing.c"
count "arguments of all classes" taken passing
if echo 'int main(void) { return 0; }' | gcc -m32 -x c - -o none 2> said; then
    model=ilp32 made stb32 -m32 "$tests/stb.c" -lm
    if ./none; then
        count "stb32" compared stb32
        grep same said
    else
        echo "not possible here: a program of 32 bits does not run"
    fi
    model=ilp32 made object32 -m32 -c "$tests/stb.c"
    count "an object file of 32 bits" compared_as_is object32
    grep same said
else
    echo "skipped: gcc -m32 makes no program here (Debian: gcc-multilib)"
fi

# Object files, whose addresses are assigned when the file is loaded. With one section for each
# function and object, they cannot be confused with each other.
made object -ffunction-sections -fdata-sections -c "$tests/stb.c"
count "an object file" compared_as_is object
grep same said
placed="-s .text.stbi_load 0x100000 -s .bss.stbi__de_iphone_flag_global 0x200000"
gdb -batch -nx -ex "add-symbol-file object.debug $placed" -ex 'info address stbi_load' \
    -ex 'print &stbi__de_iphone_flag_global' > seen 2>&1
count "a function where a module is" grep -q 'is a function at address 0x100000\.$' seen
count "an object where a module is" grep -q '(int \*) 0x200000 <stbi' seen
# A kernel module: sections with many names, placed where the kernel placed them, and types that are
# a child of the kernel's. `ctf load` takes the file that `add-symbol-file` has placed.
gcc -g -O1 -w -c "$tests/module_one.c" "$tests/module_two.c"
ld -r -o module.g module_one.o module_two.o
gcc -g -w -shared -o kernel.so "$tests/kernel.c"
client ctfd-convert kernel.so kernel.types > said 2>&1 || cat said
client ctfd-convert --parent kernel.types --section module.g module.ctf > said 2>&1 || cat said
objcopy --strip-debug module.ctf module
prepare "the debug file of a module" client ctfd-debuginfo module --parent kernel.types \
    --symbols module.g module.debug
count "module.debug is right" llvm-dwarfdump --verify module.debug
placed=$("$tests/placed.py" module)

# compared_placed NAME: compares both kinds of debug information, of a module that a kernel has
# loaded, without the names that two of its files define.
compared_placed() {
    local name=$1 out
    rm -f names
    asked first "" -ex "add-symbol-file $name.g $placed"
    sed -i -E 's/"(count|open_device)", //g' names
    for out in first again; do asked $out "" -ex "add-symbol-file $name.g $placed"; done
    asked ours "" -ex "add-symbol-file $name.debug $placed"
    "$tests/compare.py" "$tests/known.txt" first again ours
}

count "a module" compared_placed module
grep same said
for name in module.g module.debug; do
    gdb -batch -nx -ex "add-symbol-file $name $placed" -ex "print &'module_one.c'::count" \
        -ex "print &'module_two.c'::count" -ex "print &'module_one.c'::open_device" \
        -ex "print &'module_two.c'::open_device" 2>&1 | grep '^\$' > seen.$name
done
count "names of two files of a module" diff seen.module.g seen.module.debug
count "which are four" [ "$(sed 's/.* //' seen.module.debug | wc -l)" = 4 ]

# loaded WORD..: writes the plug-in's answers about a module, which the words have placed, to seen.
loaded() {
    gdb -batch -nx -iex 'set architecture i386:x86-64' -ex "source $top/clients/gdb/ctfgdb.py" \
        -ex "${1:-echo}" -ex 'ctf load module kernel.types' -ex 'print &operations' \
        -ex 'ctf print &operations' -ex 'ctf print close_device' -ex 'ctf print &count' \
        > seen 2>&1 || true  # gdb's last command fails
}

loaded "add-symbol-file module $placed"
address=${placed#*-s .data.rel.ro }
wanted="(const struct operations *) ${address%% *} <operations>"
count "an object of a module by print" grep -Fqx "\$1 = $wanted" seen
count "and by ctf print" grep -Fqx "$wanted" seen
address=$(nm module | sed -n 's/^0*\(.*\) T close_device$/\1/p')
address=$(printf '0x%x' $((${placed%% *} + 0x$address)))
wanted="{int (struct device *, long)} $address <close_device>"  # as gdb 13 spells it
count "a function of a module" grep -Fqx "$wanted" seen
count "a name of two files of a module" \
    grep -q '^module is an object file with several symbols count: ' seen
loaded
count "a module that gdb has not placed" \
    grep -q '^module is an object file, whose sections have no addresses: ' seen
others=$(echo /usr/lib/debug/lib/modules/*/kernel/fs/fuse/fuse.ko)
if [ -f "${others##* }" ]; then
    count "a module by others" "$tests/module.sh" "$program" "${others##* }"
    sed -n '/asked/s/^/a module by others: /p' said
else
    echo "not run: no module with debug information here (Debian: linux-image-..-dbg)"
fi
if command -v clang > /dev/null; then
    for target in aarch64 riscv64 armv7; do
        clang --target=$target-linux-gnu -g -w -c -o other.g "$tests/waits.c" -I. 2> said &&
            client ctfd-convert --lossy --section other.g other > said 2>&1 ||
            { cat said; continue; }
        prepare "an object file of $target" client ctfd-debuginfo other other.debug
        count "which is right" llvm-dwarfdump --verify other.debug
        count "and has relocations" sh -c "llvm-readobj -r other.debug | grep -q 'ABS\|R_RISCV_64'"
    done
fi

# Two files with functions, a variable and a struct of the same names: gdb takes those of the file
# in which the program is stopped. Only the whole symbol table tells the files apart; what remains
# of it without debug information does not.
gcc -g -O0 -w -o statics.g "$tests/statics_one.c" "$tests/statics_two.c"
client ctfd-convert --lossy --section statics.g statics.ctf > said 2>&1
objcopy --strip-debug statics.ctf statics
prepare "the debug file of statics" client ctfd-debuginfo statics --symbols statics.g statics.debug
count "statics.debug is right" llvm-dwarfdump --verify statics.debug
for name in statics.g statics; do
    debug=()
    [ $name = statics.g ] || debug=(-ex "$(added statics)")
    gdb -batch -nx -iex 'set debug-file-directory /none' "${debug[@]}" \
        -ex 'break *one' -ex 'break *main' -ex run -ex 'print &count' -ex 'print touch' \
        -ex 'print count.number' -ex continue -ex 'print &count' -ex 'print touch' \
        -ex 'print count.number' $name 2>&1 | grep '^\$' > seen.$name
done
# The second struct of the same name has its number appended to the name.
sed 's/struct counted__[0-9]*/struct counted/' seen.statics > plain.statics
count "statics of two files" diff seen.statics.g plain.statics
count "which are two" [ "$(grep -c '^\$[14] = (struct counted \*)' plain.statics)" = 2 ]
count "of two names" [ "$(grep -c '^\$[14] = (struct counted__[0-9]* \*)' seen.statics)" = 1 ]

# A library, in a program without types.
made libstb.so -shared -fPIC -Dmain=stb_main "$tests/stb.c" -lm
echo 'int stb_main(int, char **); int main(int c, char **v) { return stb_main(c, v); }' > user.c
gcc -o user user.c -L. -l:libstb.so -Wl,-rpath,"$work"
gdb -batch -nx -iex 'set debug-file-directory /none' -ex 'break *stb_main' -ex run \
    -ex "$(added libstb.so)" -ex 'whatis stbi_load' -ex 'print sizeof(stbtt_fontinfo)' \
    -ex 'info args' user > seen 2>&1
wanted='type = stbi_uc *(const char *, int *, int *, int *, int)'
count "a library's function" grep -Fq "$wanted" seen
count "a library's type" grep -Eq '^\$1 = [1-9]' seen
count "arguments" grep -q '^arg0 = 1$' seen

# The debug file is found by build id, in the folder where gdb looks.
prepare "--folder" client ctfd-debuginfo --folder stb "$work/debug"
gdb -batch -nx -iex "set debug-file-directory $work/debug" -ex 'ptype struct stbtt_fontinfo' stb \
    > seen 2>&1
count "by the build id" grep -q 'unsigned char \*data;' seen

# Other debuggers, with the same file.
if command -v lldb > /dev/null; then
    lldb -b -o 'target create stb' -o 'target symbols add stb.debug' \
        -o 'expression sizeof(stbtt_fontinfo)' -o 'image lookup -t stbtt_bakedchar' > seen 2>&1
    count "a size in lldb" grep -q '^(unsigned long) \$0 = 160$' seen
    count "a type in lldb" grep -q 'float xadvance;' seen
else
    echo "not possible here: there is no lldb"
fi
if /usr/bin/python3 -c 'import drgn' 2> /dev/null; then
    count "drgn" says_160 stb.debug
    made fixed -no-pie -fno-pie "$tests/waits.c"
    ./fixed &
    pid=$!
    count "a variable in drgn, of a process" says_6 $pid fixed.debug
    kill $pid
else
    echo "not possible here: Debian's Python has no drgn"
fi

# An uncompressed file has the same entries, and pahole reports the compiler's sizes.
entries() {
    llvm-dwarfdump --debug-info "$1" | sed 1d
}
prepare "--compress-debug-sections=none" client ctfd-debuginfo --compress-debug-sections=none stb \
    plain.debug
count "the same entries" diff <(entries stb.debug) <(entries plain.debug)
count "in more bytes" [ "$(stat -c %s plain.debug)" -gt "$(stat -c %s stb.debug)" ]
if command -v pahole > /dev/null; then
    for name in stb.g stb.debug plain.debug; do pahole --sizes $name | sort > sizes.$name; done
    count "sizes in pahole" diff sizes.stb.g sizes.stb.debug
    count "sizes in pahole, not compressed" diff sizes.stb.g sizes.plain.debug
fi
if [ -r /sys/kernel/btf/vmlinux ] &&
        client ctfd-convert --lossy /sys/kernel/btf/vmlinux parts 2> said &&
        [ "$(head -c 7 parts)" = '!<arch>' ]; then
    prepare "a program in parts" client ctfd-debuginfo parts parts.debug
    count "which is right" llvm-dwarfdump --verify parts.debug
    gdb -batch -nx -ex 'print sizeof(struct list_head)' parts.debug > seen 2>&1
    count "a type of it" grep -q '^\$1 = 16$' seen
fi

# A waiting process, and its core file.
made waits "$tests/waits.c"
./waits &
pid=$!
questions=(-ex 'print first.next->y' -ex 'print sizeof(struct point)'
    -ex 'print &last == first.next')
answers=$(printf '$1 = 6\n$2 = 16\n$3 = 1')
if gdb -batch -nx -iex 'set debug-file-directory /none' -ex "$(added waits)" "${questions[@]}" \
        -ex 'generate-core-file core' -p $pid > seen 2>&1 && [ -f core ]; then
    count "attached" [ "$(grep '^\$' seen)" = "$answers" ]
    gdb -batch -nx -iex 'set debug-file-directory /none' -ex "$(added waits)" "${questions[@]}" \
        waits core > seen 2>&1
    count "a core file" [ "$(grep '^\$' seen)" = "$answers" ]
else
    echo "not possible here: gdb attaches to no process"
fi
kill $pid

# The plug-in writes the file once, then takes it from the user's cache folder, unless other users
# may write there.
export XDG_CACHE_HOME=$work/cache
loads() {
    gdb -batch -nx -iex 'set debug-file-directory /none' \
        -ex "source $top/clients/gdb/ctfgdb.py" "$@" -ex 'ctf load' "${questions[@]}" waits
}
for time in first second; do
    loads > seen 2>&1
    count "ctf load, the $time time" grep -q "^gdb's own commands know these types too" seen
    count "print after it" [ "$(grep '^\$' seen)" = "$answers" ]
    count "one file is kept" [ "$(ls cache/ctfd | wc -l)" = 1 ]
done
count "which is its owner's" [ "$(stat -c %a cache/ctfd)" = 700 ]
# hinted WORD..: prints how often `ctf print` says that gdb's own print would do.
hinted() {
    gdb -batch -nx -iex 'set debug-file-directory /none' \
        -ex "source $top/clients/gdb/ctfgdb.py" "$@" -ex 'ctf load' -ex 'ctf print first.y' \
        -ex 'ctf print first.x' waits > seen 2>&1
    grep -cx "(gdb's own print knows this type too)" seen || true
}
count "that print would do is said once" [ "$(hinted)" = 1 ]
count "beside both values" [ "$(grep -cx '[34]' seen)" = 2 ]
loads -ex 'set ctf-debuginfo off' > seen 2>&1 || true  # gdb's last command fails
count "set ctf-debuginfo off" grep -q 'has unknown type' seen
count "that print would do is not said then" [ "$(hinted -ex 'set ctf-debuginfo off')" = 0 ]
# Debian's lldb 14 looks for its Python package in the wrong folder.
packages=$(echo /usr/lib/llvm-*/lib/python3*/dist-packages)
export PYTHONPATH=${packages// /:}
path=$PATH PATH=/usr/bin:$PATH  # lldb needs the Python in /usr/bin first
if lldb -b -o 'script import lldb; print(lldb.SBTarget)' 2>&1 | grep -q "^<class"; then
    lldb -b -o "command script import $top/clients/lldb/ctfdlldb.py" -o 'target create waits' \
        -o ctfload -o 'expression sizeof(struct point)' -o 'target variable first' > seen 2>&1
    count "ctfload in lldb" grep -q '^(unsigned long) \$0 = 16$' seen
    count "a variable in lldb" grep -q '^  y = 4$' seen
    ./waits &
    pid=$!
    lldb -b -o "command script import $top/clients/lldb/ctfdlldb.py" -o 'target create waits' \
        -o ctfload -o "process attach -p $pid" -o 'target variable *first.next' \
        -o 'expression first.next == &last' > seen 2>&1
    kill $pid
    count "a variable in lldb, attached" grep -q '^  y = 6$' seen
    count "and its address" grep -q '^(bool) \$0 = true$' seen
    lldb -b -o "command script import $top/clients/lldb/ctfdlldb.py" -o 'target create user' \
        -o 'breakpoint set -n stb_main' -o run -o "ctfload $work/libstb.so" \
        -o 'expression sizeof(stbtt_fontinfo)' -o 'expression stbi__de_iphone_flag_global = 7' \
        -o 'target variable stbi__de_iphone_flag_global' -o kill > seen 2>&1
    count "a library's type in lldb" grep -q '^(unsigned long) \$0 = 160$' seen
    count "its variable" grep -q '^(int) stbi__de_iphone_flag_global = 7$' seen
    lldb -b -o "command script import $top/clients/lldb/ctfdlldb.py" \
        -o "target create --arch x86_64 $work/module" -o ctfload > seen 2>&1 || true
    count "an object file in lldb" grep -q 'module is an object file, in which lldb takes' seen
    lldb -b -o "target create --arch x86_64 module.debug" \
        -o "target modules load -f module.debug .text 0x1000000 .data.rel.ro 0x2000000" \
        -o 'image lookup -vs operations' -o 'image lookup -vn close_device' > seen 2>&1
    count "an object of a module in lldb" grep -q 'range = \[0x0000000002000000-' seen
    count "a function of a module in lldb" \
        grep -q 'Function: .*"close_device", range = \[0x0000000001000' seen
else
    echo "not possible here: lldb has no Python"
fi
unset PYTHONPATH
PATH=$path
chmod 777 cache/ctfd
loads > seen 2>&1
count "a folder of others" grep -q 'is not a folder that its owner alone may write to' seen
count "which is not used" [ "$(grep '^\$' seen)" = "$answers" ]

# For a stripped program, the symbols are those of a copy; without one, there are none.
# says TEXT WORD..: checks that ctfd-debuginfo with these words prints a line that matches TEXT.
says() {
    local text=$1
    shift
    client ctfd-debuginfo "$@" > told 2>&1 || true
    grep -Eq "$text" told || { cat told; return 1; }
}
strip -o bare stb
count "a stripped program" says 'name the program before it was stripped by --symbols' bare x.debug
count "its types" says '^x.debug: [0-9]+ types, 0 objects, 0 functions' bare x.debug
count "its symbols by a copy" says ' [1-9][0-9]* objects, [1-9][0-9]* functions' \
    bare --symbols stb.g x.debug
rm x.debug
count "another build" says '^ctfd-debuginfo: png is of another build than bare' \
    bare --symbols png x.debug
count "which leaves no file" [ ! -e x.debug ]
# Without a build id, the loaded parts and the symbols tell whether a copy is of the same build.
for name in one two; do
    echo "int number_$name = 1; int main(void) { return number_$name; }" > $name.c
    gcc -g -Wl,--build-id=none -o $name.g $name.c
    client ctfd-convert --section $name.g $name > said 2>&1 || cat said
done
echo 'int number[9] = {1}; int main(void) { return number[0]; }' > longer.c
gcc -g -Wl,--build-id=none -o longer.g longer.c
strip -o bare one
count "symbols by a copy without a build id" says ': [0-9]+ types, [1-9][0-9]* objects' \
    bare --symbols one.g x.debug
count "a copy that is loaded otherwise" says '^ctfd-debuginfo: longer.g is of another build than' \
    bare --symbols longer.g x.debug
count "a copy with other symbols" \
    says 'symbols of its .symtab are not those that the types were written for' \
    bare --symbols two.g x.debug
count "of which types alone are written" says '^x.debug: [0-9]+ types, 0 objects, 0 functions' \
    bare --symbols two.g x.debug
# A file of types alone with its program, and a child of a parent's types.
client ctfd-convert --lossy stb.g stb.types > said 2>&1 || true
count "a section beside its program" says ' [1-9][0-9]* objects, [1-9][0-9]* functions' \
    stb.types x.debug --program stb
count "beside another program" says 'its .symtab are not those that the types were written for' \
    stb.types x.debug --program png
count "a program that is none" says 'stb.types is no ELF file: name the program .* by --program' \
    stb.types --symbols stb.g x.debug
count "two programs" says 'stb is an ELF file itself' stb --program png x.debug
if command -v pahole > /dev/null; then
    cp stb.g stb.btf
    pahole -J stb.btf
    objcopy -O binary --only-section=.BTF --set-section-flags .BTF=alloc stb.btf bare.btf
    client ctfd-convert --lossy bare.btf btf.types > said 2>&1 || true
    count "BTF beside its program" says ' [1-9][0-9]* functions' btf.types btf.debug --program stb
    count "which is right" llvm-dwarfdump --verify btf.debug
    gdb -batch -nx -iex 'set debug-file-directory /none' -ex "$(added stb btf)" \
        -ex 'whatis stbi_load' stb > seen 2>&1
    count "its functions' types" grep -Fqx "$wanted" seen
else
    echo "skipped: no pahole here (Debian: dwarves)"
fi
client ctfd-convert --lossy statics.g parent.types > said 2>&1 || true
client ctfd-convert --lossy --parent parent.types --section stb.g child.ctf > said 2>&1 || true
objcopy --strip-debug child.ctf child
count "a child without its parent" says 'child is a child of parent, .*: name .* by --parent' \
    child x.debug
count "of another parent" says 'stb.types, as its parent|these are not the types with which the child' \
    child --parent stb.types x.debug
count "a child" client ctfd-debuginfo child --parent parent.types child.debug
count "which is right" llvm-dwarfdump --verify child.debug
gdb -batch -nx -iex 'set debug-file-directory /none' -ex "$(added child)" \
    -ex 'print sizeof(stbtt_fontinfo)' -ex 'print sizeof(struct counted)' -ex 'whatis stbi_load' \
    child > seen 2>&1
count "the child's type" grep -q '^\$1 = 160$' seen
count "the parent's type" grep -Eq '^\$2 = (4|16)$' seen
count "the child's symbol" grep -Fq "$wanted" seen
client ctfd-debuginfo stb --no-arguments stb.debug > said
count "--no-arguments" sh -c "! llvm-dwarfdump stb.debug | grep -q '\"arg0\"'"
tell debuginfo
