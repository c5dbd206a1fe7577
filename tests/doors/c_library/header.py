#!/usr/bin/env python3
"""Compares clients/c/ctfd.h with the crates that it declares.

usage: tests/doors/c_library/header.py [--crates FOLDER] [ARCHIVE]

Nothing proves that a header declares what a crate exports. So each declaration is compared with the
export of its name: the names and widths of its parameters, in order; its result; the fields of each
struct behind a pointer; the names and numbers of statuses, with those of faults; the numbers of
kinds. With an archive, the names that it defines are compared too: those of the crates, and those
of clients/c/ctfd_libctf.h and gnu/ctf-api.h. libctfd.so beside it must export nothing else.

clients/rust/ctfd/src/raw.rs, which has the same declarations for Rust, is compared in the same way.
docs/C.md must have a row for each call of illumos' libctf and of GNU's (illumos_calls.txt,
gnu_calls.txt).

Then the header is broken on purpose, in a dozen ways, and each must be found. Prints what differs,
and counts; the status is 1 if something does.
"""
from __future__ import annotations

import argparse
import re
import subprocess
import sys
from dataclasses import dataclass, field
from pathlib import Path

TOP = Path(__file__).resolve().parents[3]
# The C struct of each handle, and the files below crates/ctf_c/src that take it.
HANDLES = {"struct ctfd": ["*.rt"], "struct ctfd_service": ["service.rt", "service/*.rt"]}
NUMBERS = {"uint8_t": "u8", "uint16_t": "u16", "uint32_t": "u32", "uint64_t": "u64",
           "int32_t": "i32", "size_t": "usize", "bool": "bool", "char": "u8", "void": "u8"}
RESULTS = {"enum ctfd_status": "u32", "void": "nothing"}
# Names in C that differ from those in the crates.
RENAMED = {"tnum": "type"}


@dataclass
class Api:
    """The calls, structs and constants for C, in the crates' terms."""

    calls: dict[str, tuple[str, list[tuple[str, str]]]] = field(default_factory=dict)
    structs: dict[str, list[tuple[str, str]]] = field(default_factory=dict)
    statuses: dict[str, int] = field(default_factory=dict)
    names: list[str] = field(default_factory=list)
    kinds: dict[str, int] = field(default_factory=dict)


def struct_name(name: str, handle: str) -> str:
    """The C name of a crate's struct."""
    if name == "Handle":
        return handle
    words = re.findall(r"[A-Z][a-z]*", name.removeprefix("Given"))
    return "struct ctfd_" + "_".join(words).lower()


def c_parameters(name: str, kind: str, handle: str) -> list[tuple[str, str]]:
    """A parameter of an export as in C: none, one or two parameters."""
    if kind == "Global":
        return []
    found = re.fullmatch(r"&(?:'static )?(mut )?(\[)?(\w+)\]?", kind)
    if not found:
        return [(name, kind)]
    to = found[3] if found[3] in NUMBERS.values() else struct_name(found[3], handle)
    length = [(f"{name}_len", "usize")] if found[2] else []
    return [(name, f"*{'mut' if found[1] else 'const'} {to}"), *length]


def fields(name: str, source: str) -> list[tuple[str, str]]:
    """The fields of a struct, with those of nested structs in their place."""
    body = re.search(rf"pub struct {name} \{{(.*?)\n\}}", source, re.DOTALL)
    assert body, name
    found = []
    for line in body[1].splitlines():
        part = re.fullmatch(r"\s*(?:pub )?(\w+): ([^{},]+),", line)
        if not part or part[2] == "Global":
            continue
        if re.fullmatch(r"[A-Z]\w+", part[2]):
            found += fields(part[2], source)
        else:
            found.append((RENAMED.get(part[1], part[1]), part[2]))
    return found


def of_crates(crates: Path) -> Api:
    """The exports of the crates."""
    api = Api()
    sources = crates / "ctf_c" / "src"
    taken: set[Path] = set()
    for handle, patterns in reversed(HANDLES.items()):
        files = {file for pattern in patterns for file in sources.glob(pattern)} - taken
        taken |= files
        source = "\n".join(file.read_text(encoding="utf-8") for file in sorted(files))
        source = re.sub(r"//.*", "", source)
        exports = re.findall(r'#\[unsafe\(no_mangle\)\]\s*pub extern "C" fn (\w+)\((.*?)\)'
                             r"\s*(?:-> (\w+))?\s*(?:ensures|requires|\{)", source, re.DOTALL)
        assert len(exports) == source.count('extern "C" fn'), handle
        structs = {"Handle"}
        for name, text, result in exports:
            parameters: list[tuple[str, str]] = []
            for one in filter(None, map(str.strip, re.sub(r"\s+", " ", text).split(","))):
                parameter, kind = one.split(": ")
                parameters += c_parameters(RENAMED.get(parameter, parameter), kind, handle)
                structs |= set(re.findall(r"Given\w+", kind))
            api.calls[name] = (result or "nothing", parameters)
        for struct in structs:
            api.structs[struct_name(struct, handle)] = fields(struct, source)
    faults = (crates / "ctf_model" / "src" / "faults.rt").read_text(encoding="utf-8")
    numbers = re.findall(r"pub const (\w+): u16 = (\d+);", faults)
    api.statuses = {"CTFD_OK": 0, **{f"CTFD_{name}": 1 + int(n) for name, n in numbers}}
    said = dict(re.findall(r'Fault::(\w+) => "(\w+)"', faults))
    api.names = ["Ok", *(said[name] for name, _ in numbers)]
    shown = (crates / "ctf_c" / "src" / "out_pointers.rt").read_text(encoding="utf-8")
    api.kinds = {f"CTFD_{name.upper()}": int(n)
                 for name, n in re.findall(r"Kind::K(\w+) => (\d+),", shown)}
    return api


def declaration(text: str) -> tuple[str, str]:
    """A parameter or field in C: its name, and its type in the crates' terms."""
    found = re.fullmatch(r"(const )?(struct \w+|enum \w+|\w+) (\*?)(\w+)", text.strip())
    assert found, text
    is_const, base, star, name = found.groups()
    kind = "u32" if base.startswith("enum ") else NUMBERS.get(base, base)
    return name, f"*{'const' if is_const else 'mut'} {kind}" if star else kind


def constants_of(text: str, name: str) -> dict[str, int]:
    body = re.search(rf"enum {name} \{{(.*?)\}}", text, re.DOTALL)
    assert body, name
    return {word: int(n) for word, n in re.findall(r"(\w+) = (\d+)", body[1])}


def of_header(text: str) -> Api:
    """The declarations of the header."""
    api = Api()
    text = re.sub(r"/\*.*?\*/", "", text, flags=re.DOTALL)
    calls = re.findall(r"^(enum ctfd_status|void|\w+) (ctfd_\w+)\(([^)]*)\);", text, re.MULTILINE)
    for result, name, parameters in calls:
        kind = RESULTS.get(result) or NUMBERS.get(result, result)
        api.calls[name] = (kind, [declaration(one) for one in parameters.split(",")])
    for name, body in re.findall(r"^(struct \w+) \{(.*?)\n\};", text, re.DOTALL | re.MULTILINE):
        api.structs[name] = [declaration(one) for one in filter(str.strip, body.split(";"))]
    api.statuses = constants_of(text, "ctfd_status")
    table = re.search(r"names\[\] = \{(.*?)\};", text, re.DOTALL)
    api.names = re.findall(r'"(\w*)"', table[1]) if table else []
    api.kinds = constants_of(text, "ctfd_kind")
    return api


def of_rust(source: str) -> Api:
    """The declarations of the Rust crate: only calls and structs."""
    api = Api()
    source = re.sub(r"//.*", "", source)
    for name, text, result in re.findall(r"pub fn (ctfd_\w+)\((.*?)\)\s*(?:-> (\w+))?;", source,
                                         re.DOTALL):
        parameters = [one.split(": ") for one in filter(None, map(str.strip, text.split(",")))]
        api.calls[name] = (result or "nothing", [
            (RENAMED.get(parameter, parameter),
             re.sub(r"(?<= )[A-Z]\w+", lambda it: struct_name(it[0], ""), kind))
            for parameter, kind in parameters])
    for name in re.findall(r"pub struct (\w+)", source):
        api.structs[struct_name(name, "")] = fields(name, source)
    return api


def for_rust(api: Api) -> Api:
    """The declarations with one struct for both handles, as in Rust."""
    both = {*HANDLES}

    def alike(kind: str) -> str:
        base, _, to = kind.partition(" ")
        return f"{base} " if to in both else kind

    calls = {name: (result, [(parameter, alike(kind)) for parameter, kind in parameters])
             for name, (result, parameters) in api.calls.items()}
    structs = {"" if name in both else name: parts for name, parts in api.structs.items()}
    return Api(calls, {name: [(part, "*mut u8" if kind == "*mut c_void" else kind)
                              for part, kind in parts] for name, parts in structs.items()})


def differences(wanted: Api, seen: Api) -> list[str]:
    found = []
    for what in ("calls", "structs", "statuses", "kinds"):
        left, right = getattr(wanted, what), getattr(seen, what)
        for name in {**left, **right}:
            if left.get(name) != right.get(name):
                found.append(f"{name}:\n    the crates have {left.get(name)}\n"
                             f"    the header has {right.get(name)}")
    if wanted.names != seen.names:
        found.append(f"names of statuses: {sorted(set(wanted.names) ^ set(seen.names))}")
    return found


def exported_names(*words: str) -> set[str]:
    """The names that nm prints."""
    said = subprocess.run(["nm", "-g", "--defined-only", *words], check=True, text=True,
                          capture_output=True).stdout
    return {line.split()[2] for line in said.splitlines() if len(line.split()) == 3}


def of_libctf() -> set[str]:
    """The calls that ctfd_libctf.h declares."""
    text = (TOP / "clients" / "c" / "ctfd_libctf.h").read_text(encoding="utf-8")
    return set(re.findall(r"^(?!typedef)(?:\w+ )+\*?(ctfd?_\w+)\(", text, re.MULTILINE))


def of_gnu() -> set[str]:
    """The names to which gnu/ctf-api.h redirects those of GNU's calls that illumos does not
    have."""
    text = (TOP / "clients" / "c" / "gnu" / "ctf-api.h").read_text(encoding="utf-8")
    return {f"ctfd_gnu_{name}" for name in re.findall(r'CTFD_GNU\("(\w+)"\)', text)}


def without_a_row(page: str) -> list[str]:
    """The calls of both libctfs that docs/C.md has no row for, in the part for each."""
    illumos, gnu = page.split("### Each call of GNU's libctf")
    lists = Path(__file__).parent
    return [f"docs/C.md has no row for {name}, which {of} has"
            for of, part in (("illumos", illumos), ("gnu", gnu))
            for name in (lists / f"{of}_calls.txt").read_text(encoding="utf-8").split()
            if f"`{name}`" not in part]


def not_as_declared(archive: Path, calls: set[str]) -> list[str]:
    """Differences between the headers and the names that an archive and the shared library beside
    it define. The archive's names for memory allocation, and those that only its objects use, do
    not count. Names in the shared library must have its version."""
    wanted, found = calls | of_libctf() | of_gnu(), []
    inside = {name for name in exported_names(str(archive)) if not re.match("rattle_|ctfd__", name)}
    if inside != wanted:
        found.append(f"declared, or defined by the archive: {sorted(inside ^ wanted)}")
    shared = archive.with_name("libctfd.so")
    if not shared.exists():
        return [*found, f"there is no {shared}: scripts/libctf.py makes it"]
    version = f"CTFD_{(TOP / 'VERSION').read_text(encoding='utf-8').split('.')[0]}"
    wanted = {version, *(f"{name}@@{version}" for name in wanted)}
    if (seen := exported_names("-D", str(shared))) != wanted:
        found.append(f"declared, or seen of libctfd.so: {sorted(seen ^ wanted)}")
    return found


BROKEN = [
    ("ctfd_size(struct ctfd *handle, uint16_t t, uint64_t *out)",
     "ctfd_size(struct ctfd *handle, uint16_t t, uint32_t *out)"),
    ("ctfd_size(struct ctfd *handle, uint16_t t, ", "ctfd_size(struct ctfd *handle, uint32_t t, "),
    ("ctfd_align(struct ctfd *handle, uint16_t t, uint64_t *out)",
     "ctfd_align(struct ctfd *handle, uint64_t *out, uint16_t t)"),
    ("bool has_sym, bool has_strs, bool ilp32,", "bool has_strs, bool has_sym, bool ilp32,"),
    ("ctfd_pointer(", "ctfd_points("),
    ("enum ctfd_status ctfd_kind(struct ctfd *handle, uint16_t t, uint32_t *out);", ""),
    ("void ctfd_close(struct ctfd *handle);", "enum ctfd_status ctfd_close(struct ctfd *handle);"),
    ("ctfd_find(struct ctfd *handle, const char *text",
     "ctfd_find(struct ctfd *handle, char *text"),
    ("enum ctfd_status ctfd_begin(struct ctfd_service *handle);",
     "enum ctfd_status ctfd_begin(struct ctfd *handle);"),
    ("    uint64_t name_len;\n    uint16_t type;\n",
     "    uint32_t name_len;\n    uint16_t type;\n"),
    ("    uint16_t type; /* The number of its type. */\n};\n\n/* A row for an enumerator.",
     "    uint32_t type; /* The number of its type. */\n};\n\n/* A row for an enumerator."),
    ("struct ctfd_enumerator_row *rows, size_t rows_len",
     "struct ctfd_member_row *rows, size_t rows_len"),
    ("    uint16_t contents;\n    uint16_t index;\n",
     "    uint16_t index;\n    uint16_t contents;\n"),
    ("    bool full;\n    void *at;\n};\n\n/* A service",
     "    void *at;\n    bool full;\n};\n\n/* A service"),
    ("CTFD_NO_TYPE = 25", "CTFD_NO_TYPE = 26"),
    ('"NoParent", "NoType"', '"NoType", "NoParent"'),
    ("CTFD_UNION = 7", "CTFD_UNION = 8"),
]


def not_found(wanted: Api, header: str) -> list[str]:
    """The broken headers in which no difference was found."""
    found = []
    as_it_is = differences(wanted, of_header(header))
    for old, new in BROKEN:
        assert header.count(old) == 1, old
        if differences(wanted, of_header(header.replace(old, new))) == as_it_is:
            found.append(f"not found: {new!r} for {old!r}")
    return found


def main() -> int:
    assert __doc__
    options = argparse.ArgumentParser(usage=__doc__.split("usage: ")[1].split("\n")[0])
    options.add_argument("--crates", type=Path, default=TOP / "crates")
    options.add_argument("archive", nargs="?")
    asked = options.parse_args()
    wanted = of_crates(asked.crates)
    header = (TOP / "clients" / "c" / "ctfd.h").read_text(encoding="utf-8")
    wrong = differences(wanted, of_header(header))
    rust = (TOP / "clients" / "rust" / "ctfd" / "src" / "raw.rs").read_text(encoding="utf-8")
    wrong += differences(for_rust(wanted), for_rust(of_rust(rust)))
    if asked.archive:
        wrong += not_as_declared(Path(asked.archive), set(wanted.calls))
    wrong += without_a_row((TOP / "docs" / "C.md").read_text(encoding="utf-8"))
    wrong += not_found(wanted, header)
    print(*wrong, sep="\n", end="\n" if wrong else "")
    print(f"header: {len(wanted.calls)} calls, {len(wanted.structs)} structs and "
          f"{len(wanted.statuses)} statuses, {len(BROKEN)} broken headers: {len(wrong)} differ")
    return 1 if wrong else 0


if __name__ == "__main__":
    sys.exit(main())
