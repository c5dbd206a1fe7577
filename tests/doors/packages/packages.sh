#!/usr/bin/env bash
# Tests the packages that `make deb` and `make dist` make, and that all have the same version.
# usage: tests/doors/packages/packages.sh PROGRAM
# Uses the archive that CTFD_ARCHIVE names, by default crates/ctf_c/out/libctfd.a. Needs make, a C
# compiler, dpkg, pkg-config, and the tools that build a wheel.
#
# A second build, in another folder and with another umask and time zone, gives the same bytes. The
# Debian package is unpacked by `dpkg-deb -x`, and installed by `dpkg --root`; the tarball by its
# script; the wheel by pip. Each time, the installed files print the types of a program that gcc
# compiled, and after removal no file is left. All files that users look for are included.
# Prints errors and counts; the status is 1 if there was an error.
set -eu
program=$(realpath "$1")
top=$(realpath "$(dirname "$0")/../../..")
for tool in make cc dpkg dpkg-deb pkg-config; do
    command -v $tool > /dev/null || { echo "skipped: no $tool here"; exit 0; }
done
archive=$("$top/tests/doors/c_library/archive.py" --kept)
[ -f "$archive" ] || { echo "$archive"; exit 0; }
work=$(mktemp -d)
trap 'rm -r "$work"' EXIT
. "$top/tests/doors/counting.sh"
said=$work/said
version=$(cat "$top/VERSION")
unset CTFD CTFD_SOCKET PYTHONPATH
compiled=${CARGO_TARGET_DIR:-$top/clients/rust/target}/release/ctfd-tools

# says WANTED COMMAND..: checks that the command prints exactly WANTED.
says() {
    local wanted=$1
    shift
    [ "$("$@" 2>&1)" = "$wanted" ] || { "$@"; return 1; }
}

# first COMMAND..: prints the first line of a command's output.
first() {
    "$@" | head -n 1
}

# packed KIND INTO: makes a package from the built files.
packed() {
    "$top/scripts/package.py" "$1" --into "$2" --program "$program" --archive "$archive"
}

echo 'struct point { int x, y; char name[16]; struct point *next; } first; int main() {}' \
    > "$work/own.c"
cc -g -o "$work/own" "$work/own.c"
printf '#include <ctfd.h>\n#include <stdio.h>\nint main(void)\n{\n    %s\n}\n' \
    'return puts(CTFD_VERSION) < 0 || ctfd_status_name(CTFD_OK)[0] == 0;' > "$work/header.c"

# answers_by_front FRONT: checks that a dictionary can be taken from it, over its socket.
answers_by_front() {
    env -i "$1" --socket "$work/socket" "own=$work/own.ctf" 2> "$work/front" &
    local front=$! tries=0
    while [ ! -S "$work/socket" ] && [ $tries -lt 200 ]; do sleep 0.1; tries=$((tries + 1)); done
    python3 -c 'import socket, sys
with socket.socket(socket.AF_UNIX) as front:
    front.connect(sys.argv[1])
    front.sendall(b"{\"op\":\"take\",\"owner\":0,\"name\":\"own\"}\n")
    assert b"\"d\":1" in front.recv(999)' "$work/socket" || { kill $front; return 1; }
    kill $front && wait $front
}

# used BELOW LIBRARIES: reads the types of a new program, with what is installed below a folder.
used() {
    local below=$1 libraries=$2
    count "ctfd-convert in $below" env PATH=/usr/bin:/bin "$below/bin/ctfd-convert" \
        "$work/own" "$work/own.ctf"
    if [ -f "$compiled" ]; then
        for command in ctfd-convert ctfd-debuginfo ctfd-diff ctfd-explore ctfd-show ctfd-store \
            ctfd-types; do
            count "$command, compiled, in $below" cmp "$compiled" "$below/bin/$command"
        done
        count "ctfd-front in $below" answers_by_front "$below/bin/ctfd-front"
        env -i "$below/bin/ctfd-types" "$work/own.ctf" "struct point" > "$work/types" 2>&1 || true
        count "ctfd-types in $below" grep -q 'size: 32, cachelines: 1, members: 4' "$work/types"
        count "ctfd-diff in $below" env -i "$below/bin/ctfd-diff" "$work/own" "$work/own"
    fi
    count "the program in $below" says "ctfd $version" first "$below/bin/ctfd" --version
    prepare "the header in $below" cc -I"$below/include" "$work/header.c" -o "$work/header" \
        "$libraries/libctfd.a"
    count "the header's version in $below" says "$version" "$work/header"
    count "pkg-config in $below" env PKG_CONFIG_PATH="$libraries/pkgconfig" \
        pkg-config --exact-version="$version" ctfd
    for file in include/ctfd_libctf.h include/ctfd/gnu/ctf-api.h lib/systemd/system/ctfd-front.socket; do
        count "$file in $below" test -s "$below/$file"
    done
    count "manual pages in $below" says "$(ls "$top/docs/man" | wc -l)" \
        sh -c "find '$below/share/man' -type f | wc -l"
}

count "one version" "$top/scripts/version.py"
count "the program's version" says "ctfd $version" first "$program" --version

for kind in deb dist; do
    prepare "make $kind" packed $kind "$work/first"
    (umask 077; cd /; TZ=Asia/Tokyo packed $kind "$work/second") > "$work/said" 2>&1 || true
done
for file in "$work"/first/*; do
    count "the same bytes: ${file##*/}" cmp "$file" "$work/second/${file##*/}"
done
packages=3
if command -v cargo > /dev/null && cargo --version > /dev/null 2>&1; then
    packages=4
    tar -xzf "$work/first/ctfd-rust-$version.tar.gz" -C "$work"
    count "the crates of the sources in Rust" sh -c "CARGO_HOME='$work/cargo' \
        '$work/ctfd-rust-$version/scripts/rust.py' metadata --format-version 1 > /dev/null"
fi
count "all packages" says $packages sh -c "ls '$work/first' | wc -l"

# A copy of the program is not known to be proved.
cp "$program" "$work/copy"
refuses_copy() {
    ! "$top/scripts/package.py" release --into "$work/release" --program "$work/copy" \
        --archive "$archive" 2> "$work/why" && grep -q "make prove" "$work/why"
}
count "make release of another build" refuses_copy

deb=$work/first/ctfd_${version}_amd64.deb
prepare "dpkg-deb -x" dpkg-deb -x "$deb" "$work/unpacked"
used "$work/unpacked/usr" "$work/unpacked/usr/lib/x86_64-linux-gnu"
count "the deb's version" says "$version" dpkg-deb -f "$deb" Version
count "the deb's dependencies" sh -c \
    "dpkg-deb -f '$deb' Depends | grep -Eq '^libc6 \(>= 2\.[0-9]+\)(, libgcc-s1)?$'"
count "all of it is root's" says "" sh -c "dpkg-deb -c '$deb' | grep -v ' root/root ' || true"

# What README shows first, with only the C library and the package installed, without Python.
without_python() {
    local bare=$work/bare library
    mkdir -p "$bare"
    cp -R "$work/unpacked/usr" "$bare/usr"
    for library in $(ldd "$compiled" | grep -oE '/[^ ]+'); do
        mkdir -p "$bare$(dirname "$library")"
        cp -L "$library" "$bare$library"
    done
    cp "$work/own" "$bare/own"
    chroot "$bare" /usr/bin/ctfd-types /own "struct point" > "$work/types" &&
        grep -q 'size: 32, cachelines: 1, members: 4' "$work/types" &&
        chroot "$bare" /usr/bin/ctfd-types --svg "struct point" /own | grep -q '</svg>' &&
        chroot "$bare" /usr/bin/ctfd-convert /own /own.ctf &&
        chroot "$bare" /usr/bin/ctfd-diff --all /own.ctf /own.ctf &&
        chroot "$bare" /usr/bin/ctfd-debuginfo /own.ctf /own.debug &&
        chroot "$bare" /usr/bin/ctfd-explore /own.ctf -o /types.html &&
        chroot "$bare" /usr/bin/ctfd-front --version | grep -q "ctfd-front $version" &&
        test -s "$bare/types.html" && test -z "$(find "$bare" -name 'python*' -type f -perm -100)"
}
if [ "$(id -u)" = 0 ] && [ -f "$compiled" ]; then
    count "without Python" without_python
else
    echo "not possible here: chroot takes root, and the compiled commands"
fi

# dpkg runs the scripts in the package outside the root, since there is no shell in it.
root=$work/root
mkdir -p "$root"/var/lib/dpkg/{info,updates,triggers} "$root/var/log"
touch "$root"/var/lib/dpkg/{status,available}
dpkg=(dpkg --root="$root" --force-script-chrootless --force-depends --log=/dev/null)
if [ "$(id -u)" = 0 ]; then
    prepare "dpkg -i" "${dpkg[@]}" -i "$deb"
    used "$root/usr" "$root/usr/lib/x86_64-linux-gnu"
    count "what dpkg knows" "${dpkg[@]}" -V ctfd
    prepare "dpkg -r" "${dpkg[@]}" -P ctfd
    count "no trace of it" test ! -e "$root/usr"
else
    echo "not possible here: dpkg installs for root alone"
fi

mkdir "$work/tarball"
prepare "tar" tar -xzf "$work/first/ctfd-$version-x86_64-linux.tar.gz" -C "$work/tarball"
install=$work/tarball/ctfd-$version/install.sh
prepare "install.sh" "$install" "$work/prefix"
used "$work/prefix" "$work/prefix/lib"
count "its units" grep -q "^ExecStart=$work/prefix/bin/ctfd serve" \
    "$work/prefix/lib/systemd/system/ctfd@.service"
prepare "install.sh --remove" "$install" --remove "$work/prefix"
count "no file of it is left" says "" find "$work/prefix" ! -type d
count "no folder of its own is left" test ! -e "$work/prefix/lib/ctfd"

prepare "the wheel by pip" python3 -m pip install --quiet --no-index --no-deps \
    --target "$work/packages" "$work/first/ctfd-$version-py3-none-linux_x86_64.whl"
count "the wheel's version" says "$version" env PYTHONPATH="$work/packages" \
    python3 -c 'import importlib.metadata as it; print(it.version("ctfd"))'
count "the package by the wheel" says 32 env PYTHONPATH="$work/packages" \
    python3 -c 'import sys, ctfd; print(ctfd.open(sys.argv[1])["struct point"].sizeof)' \
    "$work/own.ctf"
if [ -f "$compiled" ]; then
    count "a program by the wheel alone" says 32 env -i PATH=/usr/bin:/bin \
        PYTHONPATH="$work/packages" "$(command -v python3)" -c \
        'import sys, ctfd; print(ctfd.open(sys.argv[1])["struct point"].sizeof)' "$work/own"
    count "ctfd-types of the wheel" sh -c 'PYTHONPATH=$1 "$1/bin/ctfd-types" "$2" "struct point" |
        grep -q "size: 32, cachelines: 1, members: 4"' - "$work/packages" "$work/own"
fi
count "the wheel's service" says "ctfd $version" sh -c \
    'PYTHONPATH=$1 "$1/bin/ctfd" --version | head -n 1' - "$work/packages"

if command -v systemd-analyze > /dev/null; then
    mkdir "$work/units"
    for unit in "$work"/unpacked/usr/lib/systemd/system/*; do
        sed 's|^ExecStart=[^ ]*|ExecStart=/bin/true|' "$unit" > "$work/units/$(basename "$unit")"
    done
    cp "$work/units/ctfd@.service" "$work/units/ctfd@one.service"
    count "units" sh -c "cd '$work/units' && systemd-analyze verify --man=no ./*[!@].s* 2>&1 |
        grep -E 'ctfd' > ../units.said; ! [ -s ../units.said ] || { cat ../units.said; exit 1; }"
else
    echo "not possible here: no systemd-analyze judges the units"
fi
tell packages
