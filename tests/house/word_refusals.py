"""The refusals of each word of the protocol, by its definitions.

The contracts of `Library::step` and `Library::answer` cite `change_step` and `answer_to`, whose
clauses define each word. tests/house/definitions.py finds the faults that such a clause can lead
to.
"""
from __future__ import annotations

from typing import Iterator

from house.definitions import CRATES, Body, Word, body_for, reachable, read

MODEL = CRATES / "ctf_model" / "specs"
PROTOCOL = CRATES / "ctf_protocol" / "specs"
STEPS = PROTOCOL / "sessions" / "Steps.antt"
QUESTIONS = PROTOCOL / "answers" / "Questions.antt"

# The definitions whose clauses answer each request.
CHANGE_STEP = Word(STEPS, "change_step")
DRAFT_STEP = Word(PROTOCOL / "sessions" / "DraftSteps.antt", "slot_step")
DRAFT_CHARGE = Word(STEPS, "becomes_by")
ADDING = Word(PROTOCOL / "sessions" / "Additions.antt", "apply_addition")
PLAIN_ANSWER = Word(QUESTIONS, "plain_answered")
TYPE_ANSWER = Word(QUESTIONS, "facts_answer")
SLOT_ANSWER = Word(PROTOCOL / "answers" / "SlotAnswers.antt", "whole_answered")

CHANGES = ("Part", "Check", "Open", "Clear", "Reset", "Close", "Import", "Publish", "Withdraw",
           "Take", "Create")
PLAIN = ("Kind", "Record", "Args", "Array", "Encoding", "Reference", "Resolve", "Size", "Align",
         "Name", "Pointer")
WITH_FIELDS = ("Members", "Enumerators", "Path", "Show")
WHOLE = ("Find", "Symbol", "Object", "Function", "Labels", "Label")
HELD = ("info", "bytes", "model")
ADDED = ("Type", "Member", "Enumerator", "Label")

# The rules of a dictionary are refused by number, not by constant.
RULES = Word(MODEL / "rules" / "Faults.antt", "first_fault")
FIRST_RULES = range(1, 20)

# Faults that a definition names but never leads to, by the reason.
NEVER = {
    "a type that an accepted dictionary or a draft names is there": {
        ("find", "NoType"), ("add member", "NoParent"), ("add type", "NoParent"),
        ("add type", "NoType"), ("add enumerator", "NoParent")},
    "no chain is longer than the bound on the recursion: the law chains_are_short": {
        ("resolve", "Incomplete"), ("pointer", "Incomplete"), ("find", "Incomplete"),
        ("path", "Incomplete")},
    "an alignment is no product": {("align", "TooBig")},
    "a record's own fields are told, and no figure": {
        ("record", "Incomplete"), ("record", "TooBig")},
    "a new draft holds no type": {
        ("create", "ValueDeep"), ("create", "DeclDeep"), ("create", "DictTooBig")},
}

Pair = tuple[str, str]


def reading() -> frozenset[Word]:
    """The definitions that read bytes: their faults cannot occur for accepted bytes."""
    return frozenset(Word(path, name) for path in (MODEL / "format").glob("*.antt")
                     for name in read(path).clauses)


def refusals(word: str, *bodies: Body) -> Iterator[Pair]:
    """A word with each constant that some bodies may lead to, and with the number of each rule."""
    constants, words = reachable(list(bodies), reading())
    yield from ((word, constant) for constant in constants)
    if RULES in words:
        yield from ((word, str(code)) for code in FIRST_RULES)


def of_changes() -> Iterator[Pair]:
    """The words that change something, apart from the steps of a draft."""
    for variant in CHANGES:
        yield from refusals(variant.lower(), body_for(CHANGE_STEP, f"change.{variant}"))


def of_draft_steps() -> Iterator[Pair]:
    """The steps of a draft: each sort of addition, `update` and `discard`."""
    for variant in ADDED:
        added = f"add {variant.lower()}"
        for word, constant in refusals(added, body_for(ADDING, f"add.{variant}")):
            yield ("add" if constant == "READ_ONLY" else word), constant
    for variant in ("Update", "Discard"):
        yield from refusals(variant.lower(), body_for(DRAFT_STEP, variant),
                            body_for(DRAFT_CHARGE, variant))
    yield from ((word, "NO_SLOT") for word in ("add", "update", "discard"))


def of_questions() -> Iterator[Pair]:
    """Each question: about a type, whose number may be of no type, about a slot, and about its
    content."""
    named = Body(QUESTIONS, "space_type")
    for variant in PLAIN:
        yield from refusals(variant.lower(), body_for(PLAIN_ANSWER, f"plain.{variant}"), named)
    for variant in WITH_FIELDS:
        yield from refusals(variant.lower(), body_for(TYPE_ANSWER, f"ask.{variant}"), named)
    for variant in WHOLE:
        yield from refusals(variant.lower(), body_for(SLOT_ANSWER, f"whole.{variant}"))
    words = (*map(str.lower, (*PLAIN, *WITH_FIELDS, *WHOLE)), *HELD)
    yield from ((word, "NO_SLOT") for word in words)


def by_definitions(known: dict[int, str]) -> set[Pair]:
    """Each word with each of its refusals, as names of faults, without those that never occur."""
    named = {name.lower(): name for name in known.values()}
    pairs = set()
    for word, constant in (*of_changes(), *of_draft_steps(), *of_questions()):
        is_rule = constant.isdigit()
        pairs.add((word, known[int(constant)] if is_rule
                   else named[constant.replace("_", "").lower()]))
    return pairs - set().union(*NEVER.values())


def differences(page: set[Pair], known: dict[int, str]) -> list[str]:
    """A line for each refusal that only the page or only the definitions have."""
    defined = by_definitions(known)
    return [f"by the definitions alone `{word}` is refused with {fault}"
            for word, fault in sorted(defined - page)] + [
        f"by the page alone `{word}` is refused with {fault}"
        for word, fault in sorted(page - defined)]
