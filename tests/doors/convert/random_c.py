"""Random C files: types, and a program that prints the positions of their members.

The program asks its own compiler, with `sizeof`, `offsetof` and constants; it finds the position of
a bit-field by filling it. Its lines are facts:

    size|TYPE|BYTES
    member|TYPE|PATH|BIT|BITS        BITS is - where the member has no size
    array|TYPE|PATH|COUNT,COUNT..    of a member that is an array
    calls|TYPE|PATH|ARGUMENTS|VARARGS
    enumerator|TYPE|NAME|VALUE
"""
from __future__ import annotations

import random
from dataclasses import dataclass, field
from typing import List, NamedTuple

SCALARS = ("char", "signed char", "unsigned char", "short", "unsigned short", "int", "unsigned int",
           "long", "unsigned long", "long long", "unsigned long long", "_Bool", "float", "double",
           "long double", "_Complex float", "_Complex double", "_Atomic int", "_Atomic long long")
WIDE = ("__int128", "unsigned __int128")
FIELDS = {"char": 8, "signed char": 8, "unsigned char": 8, "short": 16, "unsigned short": 16,
          "int": 32, "unsigned int": 32, "long long": 64, "unsigned long long": 64, "_Bool": 1}
ALIGNMENTS = (1, 2, 4, 8, 16, 32, 64)
DEEPEST = 3
PRELUDE = """#include <stddef.h>
#include <stdio.h>
#include <string.h>
"""
SAYS = """
static void field(const char *type, const char *path, const unsigned char *bytes, size_t size)
{
	long first = -1, bits = 0;
	for (size_t at = 0; at < 8 * size; at++)
		if (bytes[at / 8] >> at % 8 & 1) {
			first = first < 0 ? (long) at : first;
			bits++;
		}
	printf("member|%s|%s|%ld|%ld\\n", type, path, first, bits);
}
#define FIELD(T, M) do { static T x; memset(&x, 0, sizeof x); x.M = ~0ull; \\
	field(#T, #M, (const unsigned char *) &x, sizeof x); } while (0)
#define SIZE(T) printf("size|%s|%zu\\n", #T, sizeof(T))
#define MEMBER(T, M) printf("member|%s|%s|%zu|%zu\\n", #T, #M, 8 * offsetof(T, M), \\
	8 * sizeof(((T *) 0)->M))
#define PLACE(T, M) printf("member|%s|%s|%zu|-\\n", #T, #M, 8 * offsetof(T, M))
#define ENUMERATOR(T, N) printf("enumerator|%s|%s|%lld\\n", #T, #N, (long long) N)
"""


class Member(NamedTuple):
    """A member in C, and the statements that print its position; `{}` stands for its struct."""

    text: str
    says: List[str]


@dataclass
class File:
    """A file under construction: the text of its types, and its program's statements."""

    model: str
    chance: random.Random
    is_plain: bool = False
    texts: List[str] = field(default_factory=list)
    says: List[str] = field(default_factory=list)
    scalars: List[str] = field(default_factory=list)
    fields: dict[str, int] = field(default_factory=dict)
    enums: List[str] = field(default_factory=list)
    aggregates: List[str] = field(default_factory=list)
    names: int = 0

    def name(self, stem: str) -> str:
        self.names += 1
        return f"{stem}{self.names}"

    def rarely(self, of: int) -> bool:
        return self.chance.randrange(of) == 0

    # Types.

    def types(self, count: int) -> None:
        self.scalars = [*SCALARS, *(WIDE if self.model == "lp64" else ())]
        if self.is_plain:
            left_out = ("_Atomic", *(["long double"] if self.model == "ilp32" else []))
            self.scalars = [s for s in self.scalars if not any(one in s for one in left_out)]
        self.fields = {**FIELDS, "long": 64 if self.model == "lp64" else 32}
        makers = (self.aggregate, self.aggregate, self.aggregate, self.enum, self.typedef)
        for _ in range(count):
            self.chance.choice(makers)()
        for one in self.aggregates + self.enums:
            self.says.append(f"SIZE({one});")
        used = [f"{one} *use{n};" for n, one in enumerate(self.aggregates + self.enums)]
        self.texts.append("struct used { " + " ".join(used) + " char last; };")
        self.says.append("SIZE(struct used);")

    def enum(self) -> None:
        name = self.name("e")
        high = 1 << self.chance.choice((3, 7, 8, 15, 16, 31))
        low = -high if self.rarely(3) else 0
        words = [f"{name}_{place}" for place in range(self.chance.randint(1, 6))]
        given = [f"{word} = {self.chance.randint(low, high - 1)}" if self.rarely(2) else word
                 for word in words]
        far = [f"{name}_far = {1 << 40}"] if self.rarely(8) and not self.is_plain else []
        given += far  # more than 32 bits: left out, with a message
        packed = " __attribute__((packed))" if self.rarely(4) and not self.is_plain else ""
        self.texts.append(f"enum {name} {{ {', '.join(given)} }}{packed};")
        self.enums.append(f"enum {name}")
        self.says += [f"ENUMERATOR(enum {name}, {word});" for word in words]

    def typedef(self) -> None:
        name = self.name("t")
        base = self.chance.choice([*self.scalars, *self.enums, *self.aggregates])
        aligned = ""
        if self.rarely(4) and not self.is_plain:
            aligned = f" __attribute__((aligned({self.chance.choice(ALIGNMENTS)})))"
        self.texts.append(f"typedef {base} {name}{aligned};")
        self.says.append(f"SIZE({name});")
        self.scalars.append(name)
        if base in self.fields:
            self.fields[name] = self.fields[base]

    def aggregate(self) -> None:
        word = self.chance.choice(("struct", "struct", "union"))
        tag = f"{word} {self.name('s')}"
        members = self.members(word, 1)
        if word == "struct" and self.rarely(5):
            name = self.name("f")
            members.append(Member(f"{self.chance.choice(self.scalars[:12])} {name}[];",
                                  [f"PLACE({{}}, {name});"]))
        self.texts.append(self.body(tag, members) + ";")
        if not members[-1].text.endswith("[];"):
            self.aggregates.append(tag)
        else:
            self.says.append(f"SIZE({tag});")
        self.says += [say.replace("{}", tag) for member in members for say in member.says]

    def body(self, tag: str, members: List[Member]) -> str:
        listed = "".join(f"\n\t{member.text}" for member in members)
        before, behind = self.attributes(), self.attributes()
        words = tag.split(" ")
        head = " ".join([words[0], *filter(None, [before]), *words[1:]])
        return f"{head} {{{listed}\n}}{' ' if behind else ''}{behind}"

    def attributes(self) -> str:
        if self.rarely(6):
            return "__attribute__((packed))"
        if self.rarely(8):
            return f"__attribute__((aligned({self.chance.choice(ALIGNMENTS)})))"
        if self.rarely(24):
            return f"__attribute__((packed, aligned({self.chance.choice(ALIGNMENTS)})))"
        return ""

    # Members.

    def members(self, word: str, depth: int) -> List[Member]:
        made = [self.member(depth) for _ in range(self.chance.randint(1, 7))]
        if not any(member.says for member in made):
            made.append(self.scalar())  # C requires a named member
        return made

    def member(self, depth: int) -> Member:
        makers = [self.scalar, self.scalar, self.bits, self.bits, self.array, self.pointer,
                  self.calls]
        if self.aggregates or self.enums:
            makers.append(self.value)
        if depth < DEEPEST and self.rarely(4):
            return self.inner(depth)
        return self.chance.choice(makers)()

    def scalar(self) -> Member:
        name = self.name("m")
        base = self.chance.choice(self.scalars)
        qualifier = self.chance.choice(("", "", "", "const ", "volatile "))
        before = ""
        if self.rarely(12) and not base.startswith(("_Atomic", "t")):  # a typedef may ask for more
            before = f"_Alignas({self.chance.choice((16, 32, 64))}) "
        return Member(f"{before}{qualifier}{base} {name}{self.of_member()};",
                      [f"MEMBER({{}}, {name});"])

    def of_member(self) -> str:
        if self.rarely(10):
            return f" __attribute__((aligned({self.chance.choice(ALIGNMENTS)})))"
        return " __attribute__((packed))" if self.rarely(14) else ""

    def value(self) -> Member:
        name = self.name("m")
        return Member(f"{self.chance.choice(self.aggregates + self.enums)} {name}"
                      f"{self.of_member()};", [f"MEMBER({{}}, {name});"])

    def bits(self) -> Member:
        base = self.chance.choice(list(self.fields))
        if self.rarely(10) and not self.is_plain:
            return Member(f"{base} : 0;", [])
        width = self.chance.randint(1, self.fields[base])
        if self.rarely(8) and not self.is_plain:
            return Member(f"{base} : {width};", [])
        name = self.name("b")
        packed = self.of_member() if self.rarely(5) else ""
        return Member(f"{base} {name} : {width}{packed};", [f"FIELD({{}}, {name});"])

    def array(self) -> Member:
        name = self.name("a")
        most = 1 if self.is_plain else 3  # gcc 12 writes the dimensions there in another order
        counts = [self.chance.randint(1, 5) for _ in range(self.chance.randint(1, most))]
        if self.rarely(12):
            counts = [0]
        listed = "".join(f"[{count}]" for count in counts)
        base = self.chance.choice([one for one in self.scalars if not one.startswith("t")]
                                  + self.aggregates)
        told = ",".join(map(str, counts))
        return Member(f"{base} {name}{listed};",
                      [f"MEMBER({{}}, {name});", f'puts("array|{{}}|{name}|{told}");'])

    def pointer(self) -> Member:
        name = self.name("p")
        base = self.chance.choice(["void", "const char", *self.scalars, *self.aggregates,
                                   f"struct {self.name('missing')}"])
        stars = "*" * self.chance.randint(1, 3)
        tail = f"[{self.chance.randint(1, 4)}]" if self.rarely(4) else ""
        return Member(f"{base} {stars}{'const ' if self.rarely(6) else ''}{name}{tail};",
                      [f"MEMBER({{}}, {name});"])

    def calls(self) -> Member:
        name = self.name("c")
        takes = [self.chance.choice(["int", "const char *", "void *", "double", "long",
                                     *(f"{one} *" for one in self.aggregates)])
                 for _ in range(self.chance.randint(0, 4))]
        more = bool(takes) and self.rarely(3)
        listed = ", ".join([*takes, *(["..."] if more else [])]) or "void"
        returns = self.chance.choice(("void", "int", "void *", "unsigned long long"))
        return Member(f"{returns} (*{name})({listed});",
                      [f"MEMBER({{}}, {name});",
                       f'puts("calls|{{}}|{name}|{len(takes)}|{int(more)}");'])

    def inner(self, depth: int) -> Member:
        word = self.chance.choice(("struct", "union"))
        members = self.members(word, depth + 1)
        text = self.body(word, members).replace("\n", "\n\t")
        says = [say for member in members for say in member.says]
        if self.rarely(2):
            return Member(f"{text};", says)
        name = self.name("i")
        inside = [say.replace("({}, ", f"({{}}, {name}.").replace("|{}|", f"|{{}}|{name}.")
                  for say in says]
        return Member(f"{text} {name};", [f"MEMBER({{}}, {name});", *inside])


class Text(NamedTuple):
    """A file: its types alone, and the whole program."""

    types: str
    program: str


def file(seed: int, model: str, is_plain: bool = False) -> Text:
    """The file of a seed. A plain one contains nothing that gcc 12 writes wrongly as GNU's CTF:
    arrays of arrays, unnamed bit-fields, atomic types and packed enums, and on i386 a long
    double."""
    made = File(model, random.Random(f"{seed}"), is_plain)
    made.types(made.chance.randint(4, 14))
    types = "\n".join(made.texts) + "\n"
    says = "\n".join(f"\t{say}" for say in made.says)
    main = f"struct used used;\nint main(void)\n{{\n{says}\n\treturn 0;\n}}\n"
    return Text(types, PRELUDE + types + SAYS + main)


if __name__ == "__main__":
    import sys

    print(file(int(sys.argv[1]), sys.argv[2]).program)
