#!/usr/bin/env bash
# Checks that what is borrowed from a dictionary cannot outlive it, and that a dictionary cannot
# outlive the lists lent to it. Three programs must not compile; two correct ones must, which shows
# that nothing else is wrong with the three.
# usage: tests/doors/c_library/lending.sh
# Works in a new crate in a copy of the crates, without checking proofs (`rt try`); each program
# takes about half a minute. Prints a row for each, which ends in "yes" or in the error; the status
# is 1 if one is wrong.
set -eu
top=$(cd "$(dirname "$0")/../../.." && pwd)
copy=$(mktemp -d)
trap 'rm -r "$copy"' EXIT
tar -C "$top" --exclude=out -cf - crates crates.txt HANDLES | tar -C "$copy" -xf -
mkdir -p "$copy/crates/lending/src"
echo 'lending: ctf_model ctf_check ctf_views ctf_space' >> "$copy/crates.txt"
cd "$copy/crates/lending"
failed=0

# The shared part of the programs: a dictionary of a struct with one member, x, and borrows from it.
cat > "$copy/shared" <<'RATTLE'
//! Lends from a dictionary.
#![tactic(auto)]

use ctf_check::{Judged, LentLists};
use ctf_model::{DataModel, Parts, TypeNum, no_parts};
use ctf_space::Space;
use ctf_views::Variant;
use std::alloc::Global;
use std::test::Fail;

const POINT: &[u8] = b"\xf1\xcf\x02\x00\
    \x00\x00\x00\x00\x00\x00\x00\x00\
    \x00\x00\x00\x00\x00\x00\x00\x00\x00\x00\x00\x00\x00\x00\x00\x00\
    \x10\x00\x00\x00\x03\x00\x00\x00\
    \x00\x00\x00\x00\x01\x30\x04\x00\x01\x00\x00\x00\x00\x00\x00\x00\
    \x00x\x00";

fn lists(alloc: Global) -> Option<Parts> {
    let mut parts = no_parts(alloc);
    if parts.ctf.append(POINT).is_err() {
        return None;
    }
    Some(parts)
}

fn opened(alloc: Global) -> Option<Judged<'static>> {
    match Judged::build(alloc, lists(alloc)?, DataModel::Lp64) {
        Ok(dictionary) => Some(dictionary),
        Err(_) => None,
    }
}

/// A dictionary over lists that are lent to it.
fn over<'a>(alloc: Global, parts: &'a Parts) -> Option<Judged<'a>> {
    let lent = LentLists {
        ctf: parts.ctf.as_slice(),
        sym: None,
        strs: None,
    };
    match Judged::judge(alloc, lent, DataModel::Lp64) {
        Ok(dictionary) => Some(dictionary),
        Err(_) => None,
    }
}

/// The name of the struct's member.
fn first_name<'a>(dictionary: &'a Judged<'_>) -> &'a [u8] {
    let space = Space::own(dictionary.view(), dictionary.model());
    match space.variant(TypeNum(1)) {
        Ok(Variant::Members(members)) => match members.get(0) {
            Some(member) => member.name,
            None => &[],
        },
        _ => &[],
    }
}

fn end(_dictionary: Judged<'_>) {}

fn end_lists(_parts: Parts) {}

RATTLE

# program: writes the crate's source: the shared part, then the test on standard input.
program() {
    cat "$copy/shared" - > src/lib.rt
}

# compiles NAME: checks that the program compiles and passes its test.
compiles() {
    if rt try --test > said 2>&1; then row "$1" yes; else row "$1" "$(head -n 1 said)"; fi
}

# refused NAME ERROR: checks that the program's only error is borrow-ERROR, of the borrow checker.
refused() {
    if rt try --test > said 2>&1; then
        row "$1" "it compiles"
    elif [ "$(grep -c 'error' said)" = 1 ] && grep -q "error\[borrow-$2\]" said; then
        row "$1" yes
    else
        row "$1" "$(head -n 1 said)"
    fi
}

row() {
    printf '%-60s %s\n' "$1" "$2"
    [ "$2" = yes ] || failed=1
}

program <<'RATTLE'
#[test]
fn lends(rt: HostRuntime) -> Result<(), Fail> {
    let Some(dictionary) = opened(rt.alloc()) else {
        panic!(rt; "it is a dictionary")
    };
    let space = Space::own(dictionary.view(), dictionary.model());
    assert_eq!(rt; (space.count(), first_name(&dictionary).len()), (1, 1));
    end(dictionary);
    Ok(())
}
RATTLE
compiles "a name and a space, and then the end of the dictionary"

program <<'RATTLE'
#[test]
fn lends(rt: HostRuntime) -> Result<(), Fail> {
    let name: &[u8];
    {
        let Some(dictionary) = opened(rt.alloc()) else {
            panic!(rt; "it is a dictionary")
        };
        name = first_name(&dictionary);
    }
    assert_eq!(rt; name.len(), 1);
    Ok(())
}
RATTLE
refused "a member's name, kept past the end of its dictionary" e0597

program <<'RATTLE'
#[test]
fn lends(rt: HostRuntime) -> Result<(), Fail> {
    let Some(dictionary) = opened(rt.alloc()) else {
        panic!(rt; "it is a dictionary")
    };
    let space = Space::own(dictionary.view(), dictionary.model());
    end(dictionary);
    assert_eq!(rt; space.count(), 1);
    Ok(())
}
RATTLE
refused "a dictionary, moved away while a space lends from it" e0505

program <<'RATTLE'
#[test]
fn lends(rt: HostRuntime) -> Result<(), Fail> {
    let Some(parts) = lists(rt.alloc()) else {
        panic!(rt; "there is memory for lists")
    };
    let Some(dictionary) = over(rt.alloc(), &parts) else {
        panic!(rt; "it is a dictionary")
    };
    assert_eq!(rt; first_name(&dictionary).len(), 1);
    end(dictionary);
    end_lists(parts);
    Ok(())
}
RATTLE
compiles "a dictionary over lent lists, its end, and then theirs"

program <<'RATTLE'
#[test]
fn lends(rt: HostRuntime) -> Result<(), Fail> {
    let Some(parts) = lists(rt.alloc()) else {
        panic!(rt; "there is memory for lists")
    };
    let Some(dictionary) = over(rt.alloc(), &parts) else {
        panic!(rt; "it is a dictionary")
    };
    end_lists(parts);
    assert_eq!(rt; first_name(&dictionary).len(), 1);
    end(dictionary);
    Ok(())
}
RATTLE
refused "lists, moved away while a dictionary is over them" e0505
exit $failed
