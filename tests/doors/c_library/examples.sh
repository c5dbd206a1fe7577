#!/usr/bin/env bash
# Checks within a second that a built libctfd.a works: the examples through ctfd_line, and the size
# of a struct. meeting.jsonl is left out, since its service is started with a dictionary.
# usage: tests/doors/c_library/examples.sh ARCHIVE
# Needs a C compiler. Prints errors; the status is then 1.
set -eu
archive=$(realpath "$1")
top=$(realpath "$(dirname "$0")/../../..")
work=$(mktemp -d)
trap 'rm -r "$work"' EXIT
cd "$top"
for source in tests/doors/c_library/lines.c examples/c/first.c; do
    cc -std=gnu11 -O1 -Iclients/c "$source" "$archive" -o "$work/$(basename "$source" .c)"
done
for file in examples/*.jsonl; do
    [ "$file" = examples/meeting.jsonl ] && continue
    "$work/lines" < "$file" | cmp - "${file%.jsonl}.replies"
done
"$work/first" | grep -qx 'struct lua_State: 200 bytes' || { echo "examples/c/first.c"; exit 1; }
