#!/usr/bin/env bash
# Runs the tests of the Rust crates without network, including those in their documentation.
# usage: tests/doors/rust/run.sh
# Uses the archive that CTFD_ARCHIVE names, by default crates/ctf_c/out/libctfd.a. Needs cargo and
# rustc, 1.82 or later, which no package of Debian 12 has: without them, this is skipped even with
# STRICT=1. The crates that they depend on are Debian packages.
# Prints the tests' output; the status is 1 if one failed.
set -eu
top=$(realpath "$(dirname "$0")/../../..")
archive=$("$top/tests/doors/c_library/archive.py" --kept)
[ -f "$archive" ] || { echo "$archive"; exit 0; }
command -v cargo > /dev/null && cargo --version > /dev/null 2>&1 || {
    echo "not possible here: there is no cargo"
    exit 0
}
[ -d "$top/clients/rust/vendor" ] || ls -d /usr/share/cargo/registry/gimli-* > /dev/null 2>&1 || {
    echo "skipped: Debian's packages of crates are not here (scripts/rust.py names them)"
    exit 0
}
work=$(mktemp -d)
trap 'rm -r "$work"' EXIT
export CTFD_ARCHIVE=$archive CARGO_TARGET_DIR=$work RUSTFLAGS="-D warnings"
cargo() { "$top/scripts/rust.py" "$@"; }
cargo test --quiet
# The library through libctfd.so, which the loader finds by its soname.
shared=$(dirname "$archive")
CTFD_LIBRARY=$shared/libctfd.so LD_LIBRARY_PATH=$shared cargo test --quiet --package ctfd \
    --features shared --tests
# As docs.rs builds the pages, without a library to link.
env -u CTFD_ARCHIVE DOCS_RS=1 RUSTDOCFLAGS="-D warnings" "$top/scripts/rust.py" doc --quiet --no-deps
# The example prints what the documentation shows.
cargo run --quiet --package ctfd --example members -- "$top/examples/lua.ctf" "struct luaL_Reg" \
    > "$work/seen"
diff "$work/seen" - << 'END'
struct luaL_Reg: 16 bytes
    0 const char *name
    8 lua_CFunction func
END
