#!/usr/bin/env bash
# Tests `make install` and `make uninstall`, and building programs with what is installed.
# usage: tests/doors/packages/install.sh PROGRAM
# Uses the archive that CTFD_ARCHIVE names, by default crates/ctf_c/out/libctfd.a. Needs make, a C
# compiler and pkg-config; uses cargo if it is installed.
#
# Installs into one folder with DESTDIR and PREFIX, and into another with PREFIX alone. With each, a
# short C program is built with the flags of `pkg-config --cflags --libs ctfd`, and a Rust program
# with the crate. The program, the Python package, the commands and the manual pages are used where
# they were installed; the package finds the program and the library relative to its own folder.
# After `make uninstall` no file is left. PREFIX=/usr, and the message if pip or wheel is missing,
# are tested too.
# Prints errors and counts; the status is 1 if there was an error.
set -eu
program=$(realpath "$1")
top=$(realpath "$(dirname "$0")/../../..")
for tool in make cc pkg-config; do
    command -v $tool > /dev/null || { echo "skipped: no $tool here"; exit 0; }
done
archive=$("$top/tests/doors/c_library/archive.py" --kept)
[ -f "$archive" ] || { echo "$archive"; exit 0; }
work=$(mktemp -d)
trap 'rm -r "$work"' EXIT
. "$top/tests/doors/counting.sh"
said=$work/said
compiled=${CARGO_TARGET_DIR:-$top/clients/rust/target}/release/ctfd-tools

# says WANTED COMMAND..: checks that the command prints exactly WANTED.
says() {
    local wanted=$1
    shift
    [ "$("$@" 2>&1)" = "$wanted" ] || { "$@"; return 1; }
}

made() {
    make -C "$top" --no-print-directory CTFD="$program" CTFD_ARCHIVE="$archive" "$@"
}

cat > "$work/own.c" << 'END'
#include <ctfd_libctf.h>
#include <stdio.h>
int main(int argc, char **argv)
{
    int error = 0;
    ctf_file_t *types = argc > 2 ? ctf_open(argv[1], &error) : NULL;
    printf("%zd\n", types ? ctf_type_size(types, ctf_lookup_by_name(types, argv[2])) : -1);
    ctf_close(types);
    return types == NULL;
}
END
mkdir -p "$work/own/src"
cat > "$work/own/Cargo.toml" << END
[package]
name = "own"
version = "0.1.0"
edition = "2021"

[dependencies]
ctfd = { path = "$top/clients/rust/ctfd" }
END
cat > "$work/own/src/main.rs" << 'END'
fn main() -> Result<(), Box<dyn std::error::Error>> {
    let words: Vec<String> = std::env::args().collect();
    let types = ctfd::Dictionary::open(&std::fs::read(&words[1])?)?;
    println!("{}", types.find(&words[2])?.size()?);
    Ok(())
}
END

# used FOLDER: uses what is installed below it. The variables for pkg-config are in the environment.
used() {
    local below=$1 lua=$top/examples/lua.ctf
    # shellcheck disable=SC2046 # the words one by one
    prepare "build in C" cc -std=gnu11 -Wall -Wextra -Werror "$work/own.c" \
        $(pkg-config --cflags --libs ctfd) -o "$work/own_c"
    count "run in C" says 200 "$work/own_c" "$lua" "struct lua_State"
    count "the version" says "$(cat "$top/VERSION")" pkg-config --modversion ctfd
    count "the program" says "$("$program" --version)" "$below/bin/ctfd" --version
    if [ -f "$compiled" ]; then
        count "ctfd-front, compiled" cmp "${compiled%tools}front" "$below/bin/ctfd-front"
        count "ctfd-front" says "ctfd-front $(cat "$top/VERSION")" "$below/bin/ctfd-front" --version
        for command in ctfd-convert ctfd-debuginfo ctfd-diff ctfd-explore ctfd-show ctfd-store \
            ctfd-types; do
            count "$command, compiled" cmp "$compiled" "$below/bin/$command"
        done
    fi
    count "a conversion" env -u CTFD PATH="/usr/bin:/bin" "$below/bin/ctfd-convert" "$lua" \
        "$work/converted"
    # The package finds the library beside it, under each installed Python.
    local packages
    packages=$(dirname "$(find "$below" -type d -path '*-packages/ctfd')")
    for python in python3 /usr/bin/python3; do
        count "types by the package" env -u CTFD PATH="/usr/bin:/bin" PYTHONPATH="$packages" \
            "$(command -v $python)" -c 'import ctfd, sys
with ctfd.open(sys.argv[1]) as types: types["struct luaL_Reg"]' "$lua"
    done
    [ ! -f "$compiled" ] || count "a type by ctfd-types" env -i "$below/bin/ctfd-types" "$lua" \
        "struct luaL_Reg"
    [ ! -f "$compiled" ] || count "no difference by ctfd-diff" env -i "$below/bin/ctfd-diff" \
        "$lua" "$lua"
    count "a unit" grep -q "^ExecStart=.*/bin/ctfd serve" "$below/lib/systemd/system/ctfd@.service"
    count "a page of the manual" test -s "$below/share/man/man3/ctfd.3"
    if command -v cargo > /dev/null && cargo --version > /dev/null 2>&1; then
        prepare "build in Rust" env -u CTFD_ARCHIVE CARGO_TARGET_DIR="$work/target" \
            cargo build --offline --quiet --manifest-path "$work/own/Cargo.toml"
        count "run in Rust" says 200 "$work/target/debug/own" "$lua" "struct lua_State"
    else
        echo "not possible here: there is no cargo"
    fi
}

prepare "install with DESTDIR" made install DESTDIR="$work/root" PREFIX=/opt/ctfd
(
    export PKG_CONFIG_PATH=$work/root/opt/ctfd/lib/pkgconfig PKG_CONFIG_SYSROOT_DIR=$work/root
    # The files are in DESTDIR, not yet at their final place, so the loader needs the path.
    export LD_LIBRARY_PATH=$work/root/opt/ctfd/lib
    used "$work/root/opt/ctfd"
    echo "$checks $wrong" > "$work/counts"
)
read -r checks wrong < "$work/counts"
prepare "uninstall with DESTDIR" made uninstall DESTDIR="$work/root" PREFIX=/opt/ctfd
count "nothing is left" says "" find "$work/root" ! -type d

prepare "install" made install PREFIX="$work/prefix"
(
    export PKG_CONFIG_PATH=$work/prefix/lib/pkgconfig
    rm -rf "$work/target"
    used "$work/prefix"
    echo "$checks $wrong" > "$work/counts"
)
read -r checks wrong < "$work/counts"
cd /
ln -s "$work/prefix/bin/ctfd-convert" "$work/to_ctf"
count "ctfd-convert by a link" env -u CTFD PATH="/usr/bin:/bin" \
    "$work/to_ctf" "$top/examples/lua.ctf" "$work/converted"
prepare "uninstall" made uninstall PREFIX="$work/prefix"
count "nothing is left" says "" find "$work/prefix" ! -type d

# Below /usr, the package is installed where Debian's Python looks for it.
prepare "install below /usr" made install DESTDIR="$work/root" PREFIX=/usr PYTHON=/usr/bin/python3
count "the package below /usr" test -f "$work/root/usr/lib/python3/dist-packages/ctfd/version.py"
count "nothing below local" test ! -e "$work/root/usr/local"
prepare "uninstall below /usr" made uninstall DESTDIR="$work/root" PREFIX=/usr PYTHON=/usr/bin/python3
count "nothing is left" says "" find "$work/root" ! -type d

# A Python that reports that it lacks two packages.
cat > "$work/python" << 'END'
#!/bin/sh
[ "$1" != -c ] || { echo pip wheel; exit 0; }
exit 1
END
chmod +x "$work/python"
lacks() {
    made install PREFIX="$work/prefix" PYTHON="$work/python" > "$work/lacks" 2>&1 && return 1
    grep -q "Debian's python3-pip python3-wheel" "$work/lacks" &&
        says "" find "$work/prefix" ! -type d
}
count "what a Python lacks" lacks
count "nothing to install" sh -c "! make -C '$top' install CTFD=/none PREFIX='$work/prefix'"

tell install
