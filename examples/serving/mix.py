"""Random requests of sessions that publish for each other, withdraw and take. Each run makes the
same requests."""
import json
import pathlib
import random
import struct

EXAMPLES = pathlib.Path(__file__).parent.parent
NAMES = ["base", "more"]
MODELS = [{}, {"model": "lp64"}, {"model": "ilp32"}]
LARGE = 60_000_000  # bytes: a session's quota has room for four


def files(folder):
    """The operator's publications: two examples, and a large dictionary without types."""
    large = pathlib.Path(folder) / "large.ctf"
    with open(large, "wb") as file:
        file.write(b"\xf1\xcf\x02\0" + struct.pack("<8I", 0, 0, 0, 0, 0, 0, 0, LARGE - 36))
        file.truncate(LARGE)
    return [*(f"{name}={EXAMPLES / name}.ctf" for name in ("lua", "zlib")), f"large={large}"]


def sections():
    """The dictionaries that examples hand in, in hexadecimal digits."""
    for name in ("struct", "parent", "bits", "symbols"):
        for line in open(EXAMPLES / f"{name}.jsonl"):
            request = json.loads(line)
            if request["op"] == "part" and request["section"] == "ctf":
                yield request["bytes"]


def begin(session, chance, dictionaries):
    """The first requests of a session: two slots, the first one published."""
    yield session, {"op": "part", "section": "ctf", "bytes": chance.choice(dictionaries)}
    yield session, {"op": "open", **chance.choice(MODELS)}
    yield session, {"op": "publish", "d": 1, "name": "base"}
    yield session, {"op": "take", "owner": 0, "name": "lua"}


def request(owners, chance):
    """Any request of a session; many are refused."""
    slot = {"d": chance.randint(1, 4)}
    asked = slot | {"t": chance.choice([chance.randint(1, 8), chance.randint(1, 526), 32_769])}
    published = {"op": "take", "owner": chance.choice(owners), "name": chance.choice(NAMES)}
    return chance.choice(
        [{"op": op} | asked for op in ("kind", "members", "size", "name", "record")]
        + [published, published, {"op": "take", "owner": 0, "name": "zlib"}]
        + [{"op": "take", "owner": 0, "name": "large"}, {"op": "model"} | slot]
        + [{"op": op, "name": chance.choice(NAMES)} | slot for op in ("publish", "withdraw")]
        + [{"op": "create", **more} | chance.choice(MODELS)
           for more in ({}, {"parent": slot["d"], "parname": "p"})]
        + [{"op": "import", "parent": chance.randint(1, 4)} | slot]
        + [chance.choice([{"op": "reset"}, {"op": "close"} | slot, {"op": "info"} | slot])]
    )


def mix(sessions, owners, count, seed=1):
    """`count` requests, each a session and its fields; `owners(s)` lists those that session s takes
    from."""
    chance, dictionaries = random.Random(seed), list(sections())
    waiting = [list(begin(session, chance, dictionaries)) for session in sessions]
    for _ in range(count):
        first = chance.choice(waiting)
        if first:
            yield first.pop(0)
        else:
            session = chance.choice(sessions)
            yield session, request(owners(session), chance)
