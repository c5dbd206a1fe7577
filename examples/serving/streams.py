"""Redis streams over a socket, with as much of the protocol (RESP) as a queue of lines needs.

`requests:P` has the requests of partition P, an entry for each: the session `s` and the line.
`replies:S` has the replies of session S, each under the number (ID) of its request.
"""
import json
import socket


class Refused(Exception):
    """Redis answered with an error."""


class Redis:
    def __init__(self, port):
        self.socket = socket.create_connection(("127.0.0.1", port))
        self.answers = self.socket.makefile("rb")

    def ask(self, *words):
        words = [word if isinstance(word, bytes) else str(word).encode() for word in words]
        sent = b"".join(b"$%d\r\n%s\r\n" % (len(word), word) for word in words)
        self.socket.sendall(b"*%d\r\n%s" % (len(words), sent))
        return self.answer()

    def answer(self):
        line = self.answers.readline()
        if not line.endswith(b"\r\n"):
            raise ConnectionError("redis has gone")
        sort, rest = line[:1], line[1:-2]
        if sort == b"-":
            raise Refused(rest.decode())
        if sort == b"+":
            return rest
        if sort == b":":
            return int(rest)
        if int(rest) < 0:  # none
            return None
        if sort == b"*":
            return [self.answer() for _ in range(int(rest))]
        return self.answers.read(int(rest) + 2)[:-2]


def fields(entry):
    """The number of an entry, and its fields."""
    number, words = entry
    return number, dict(zip(words[::2], words[1::2]))


def follow(redis, names, wait):
    """The entries of streams from their beginning, with the stream's name, as they come.

    Ends when nothing has come for `wait` milliseconds; 0 waits for ever."""
    seen = {name.encode(): b"0-0" for name in names}
    while found := redis.ask("XREAD", "COUNT", 100, "BLOCK", wait,
                             "STREAMS", *seen, *seen.values()):
        for name, entries in found:
            for entry in entries:
                seen[name], told = fields(entry)
                yield name, seen[name], told


def line(session, request):
    """A request as a line that names its session, whatever it names itself."""
    return json.dumps({**request, "s": session})


def send(redis, partitions, session, request):
    """Puts a request of a session into its partition's stream."""
    redis.ask("XADD", f"requests:{session % partitions}", "*",
              "s", session, "line", line(session, request))
