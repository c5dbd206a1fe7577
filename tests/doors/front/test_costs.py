"""The processor time of the front for a line depends on its length, not on how it is written.
test_instructions.py counts the same costs in instructions, with narrower limits."""
from __future__ import annotations

import selectors
import sys
from typing import List

from .support import HAND_IN, Front, Talker, WithFront, ask, processor

KIND = ask("kind", d=1, t=1)
INTEGERS = b'{"op":"info","x":[' + b",".join([b"1"] * 490_000) + b'],"s":1,"d":1}\n'
PIECE = 65_536
# Processor time is measured, of which busy neighbours may take twice as much for the same work. So
# each limit is several times the usual cost, and the errors it should find cost several times more.
A_MEGABYTE = 0.1
A_LINE = 10e-6


class Costs(WithFront):
    def processor_seconds(self, front: Front) -> float:
        return processor(front.process.pid)

    def test_line_of_integers(self) -> None:
        front = self.front().start()
        talker = self.talker(front)
        talker.ask(HAND_IN)
        before = self.processor_seconds(front)
        for _ in range(10):
            self.assertIn(b'"types":1', talker.ask(INTEGERS))
        each = (self.processor_seconds(front) - before) / 10
        print(f"a line of 1 MB: {each * 1000:.2f} ms", file=sys.stderr)
        self.assertLess(each, A_MEGABYTE)

    def test_lines_of_fifty_clients(self) -> None:
        for count in (1, 50):
            front = self.front(path=f"of{count}").start()
            talkers = [self.talker(front) for _ in range(count)]
            for talker in talkers:
                talker.ask(HAND_IN)
            lines = 100_000 // count
            before = self.processor_seconds(front)
            exchange(talkers, lines)
            each = (self.processor_seconds(front) - before) / (count * lines)
            print(f"a line of {count} clients: {1e6 * each:.2f} us", file=sys.stderr)
            self.assertLess(each, A_LINE, f"{count} clients")


def exchange(talkers: List[Talker], lines: int) -> None:
    """Each client writes a number of lines while it reads its replies."""
    data = memoryview(lines * KIND)
    left = {talker.socket: data for talker in talkers}
    owed = {talker.socket: lines for talker in talkers}
    with selectors.DefaultSelector() as ready:
        for talker in talkers:
            talker.socket.setblocking(False)
            ready.register(talker.socket, selectors.EVENT_READ | selectors.EVENT_WRITE)
        while owed:
            for key, mask in ready.select(60):
                channel = key.fileobj
                if mask & selectors.EVENT_WRITE:
                    left[channel] = left[channel][channel.send(left[channel][:PIECE]):]
                    if not left[channel]:
                        ready.modify(channel, selectors.EVENT_READ)
                if mask & selectors.EVENT_READ:
                    owed[channel] -= channel.recv(4 * PIECE).count(b"\n")
                    if not owed[channel]:
                        ready.unregister(channel)
                        del owed[channel]
