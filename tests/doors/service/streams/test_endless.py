"""Lines that are too long, from a pipe: an endless one needs no more memory than a long one."""
from __future__ import annotations

import re
import subprocess
import threading
from pathlib import Path

from ..runs import ask, stream_of

MEBIBYTE = 1 << 20
ENDLESS = 2048 * MEBIBYTE
# A kernel counts a process's memory per processor, and adds up late.
SPARE_KIB = 32 * 1024
# A service that has not replied by then is killed; it would wait for more input.
LONGEST_SECONDS = 120
REPLIES = (b'{"fault":{"code":59,"name":"LongLine","place":0},"s":0}\n'
           b'{"ok":{},"s":7}\n')


def high_water(pid: int) -> int:
    """The peak memory of a running process, in KiB."""
    status = Path(f"/proc/{pid}/status").read_text(encoding="ascii")
    found = re.search(r"VmHWM:\s+([0-9]+) kB", status)
    return int(found[1]) if found else 0


def answered_long_line(program: str, length: int) -> tuple[bytes, int]:
    """The replies to a line of blanks and a reset after it, and the peak memory in KiB."""
    piece, pipe = MEBIBYTE * b" ", subprocess.PIPE
    with subprocess.Popen([program, "serve"], stdin=pipe, stdout=pipe) as child:
        assert child.stdin and child.stdout
        late = threading.Timer(LONGEST_SECONDS, child.kill)
        late.start()
        for _ in range(length // MEBIBYTE):
            child.stdin.write(piece)
        child.stdin.write(b"\n" + stream_of([ask(7, "reset")]))
        child.stdin.flush()
        out = child.stdout.readline() + child.stdout.readline()
        late.cancel()
        memory = high_water(child.pid)
        child.stdin.close()
    return out, memory


def test_long_lines(program: str) -> None:
    """An endless line has the same replies as a long one, and needs as much memory."""
    long, little = answered_long_line(program, 2 * MEBIBYTE)
    endless, much = answered_long_line(program, ENDLESS)
    assert long == endless == REPLIES
    assert 0 < much <= little + SPARE_KIB
