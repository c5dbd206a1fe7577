#!/usr/bin/env bash
# Passes a dictionary that this project writes to pahole, another reader of the format, and compares
# its output.
# usage: tests/doors/dump/written_by_pahole.sh
# Prints a row for each comparison, which ends in "yes", or in "no" followed by the difference; the
# status is 1 if one was "no". Needs Debian's package dwarves (tested with 1.24 of Debian 12), gcc,
# objcopy and Python; if one is missing, says so and exits with status 0.
#
# The dictionary is examples/written.ctf, with one type of each kind: the bytes that a test of the
# writer expects. pahole, and pdwtags, which lists all types, read it from the section .SUNW_ctf of
# an object file. That file must have a symbol table, and no function in it: the readers expect type
# information for every function, and here there is none.
#
# The expected lists below were worked out by hand from the types. The readers have these
# peculiarities; those about sizes of enums and about forwards also appeared with a dictionary of
# another tool (examples/lua.ctf):
# - For type 1, which is unknown, they only print number, offset and visibility, on standard error.
# - A float's width in a struct is that of the C type with its name. `f` is no such type, so the
#   member has no width.
# - An enum's size in bytes is taken as bits, so 4 becomes 0 bytes, and "packed". Values are
#   unsigned: -1 is 4294967295.
# - A forward is shown as a struct without members, and the kind that it declares (6, struct) as its
#   size.
# - The size of a function is that of its return type.
# - For a qualified type, only the size of the unqualified type is shown.
# They do not show labels, encodings, the index type of an array, and what a qualifier applies to.
# tests/doors/dump/test_written_by_libctf.py shows all of these except labels.
set -u
here=$(realpath "$(dirname "$0")")
for tool in pahole pdwtags gcc objcopy python3; do
    command -v "$tool" > /dev/null || { echo "skipped: no $tool here"; exit 0; }
done
dictionary=$here/../../../examples/written.ctf
work=$(mktemp -d)
trap 'rm -r "$work"' EXIT
cd "$work" || exit 1
failed=0

# same NAME FILE WANTED: checks that FILE has the contents of the file WANTED.
same() {
    local well=yes
    diff "$3" "$2" > difference 2>&1 || well=no
    printf '%-36s %s\n' "$1" "$well"
    cat difference
    [ "$well" = yes ] || failed=1
}

# listed PROGRAM: writes the program's list to the file `listed`, one type per line with blanks
# squeezed, and its standard error to the file `said`.
listed() {
    { "$1" -F ctf written.o 2> said | tr -s ' \t\n' ' '; echo; } > words
    sed -E 's#/\* ([0-9]+|Functions:) \*/#\n\1#g; s#; (union|struct) #;\n\1 #g; s/ +(\n|$)/\1/g' \
        words > listed
}

"$here/written_bytes.py" > bytes || failed=1
same "the bytes that the test expects" "$dictionary" bytes

: > empty.c
gcc -c empty.c -o empty.o || exit 1
objcopy --add-section .SUNW_ctf="$dictionary" empty.o written.o || exit 1

listed pdwtags
cat > types << 'EOT'
/* Types: */
2 int /* size: 4 */
3 f /* size: 8 */
4 /* pointer to 2 */ /* size: 8 */
5 int array[10]; /* size: 40 */
6 int ()(int *, ...); /* size: 4 */
7 struct s { int i; /* 0 4 */ /* size: 4, cachelines: 1, members: 1 */ /* last cacheline: 4 bytes */ }; /* size: 4 */
8 union u { f f; /* 0 0 */ }; /* size: 8 */
9 enum e { A = 4294967295, } __attribute__((__packed__)); /* size: 0 */
10 struct w { /* size: 6, cachelines: 1, members: 0 */ /* padding: 6 */ /* last cacheline: 6 bytes */ }; /* size: 6 */
11 typedef int t; /* size: 4 */
12 /* tag__fprintf: volatile_type tag not supported! */; /* size: 4 */
13 /* tag__fprintf: const_type tag not supported! */; /* size: 4 */
14 /* tag__fprintf: restrict_type tag not supported! */; /* size: 8 */
Functions: /* Variables: */
EOT
same "types, by pdwtags" listed types
head -n 1 said > listed
echo 'CTF: idx: 1, off: 0, root: yes Unknown' > first
same "the unknown type, by pdwtags" listed first

listed pahole
cat > classes << 'EOT'
struct s { int i; /* 0 4 */ /* size: 4, cachelines: 1, members: 1 */ /* last cacheline: 4 bytes */ };
union u { f f; /* 0 0 */ };
EOT
same "structs and unions, by pahole" listed classes
exit $failed
