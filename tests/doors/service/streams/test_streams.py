"""Runs a built ctfd on streams that move few bytes, break, or never end, and with bounds on reads.

The runs are the first example and some transcripts, with reads of 7 bytes and writes of 5; and four
longer ones, the two longest transcripts and the two of growths: with reads of 256 bytes and writes
of 64, and with reads as long as the program asks for and writes of 1,000. course.py computes from
the input and the output what each call should move.

- If no call fails, the output is the same. Before each read, the replies to all lines so far are
  written, which is the effect of flushing standard output.
- Each read fails in turn, with an error and with an interruption. Then the output has the replies
  to the lines that were read completely, and `ctfd: Read`; the status is 3, and no call follows.
- Each write fails in turn, in the same ways and by accepting no bytes. Then the output has the
  bytes of the writes before it, and `ctfd: Write`; the status is 3, and no call follows.
- Each bound on reads below the number that the run needs replaces the 2^40 in the program's code.
  Then there are that many reads, the replies to the lines that they completed, `ctfd: ReadBound`
  and status 3. The least sufficient bound, and one more, change nothing.

Two cases are not reached: a bound of 0, since the program's loop compares after a read, and a flush
that fails, since flushing standard output makes no call. crates/test_service tests both.
"""
from __future__ import annotations

import errno
import shutil
import subprocess
from concurrent.futures import ThreadPoolExecutor
from dataclasses import dataclass, replace
from functools import cached_property, partial
from pathlib import Path
from typing import Callable, Iterator

import pytest

from ..growths.longer import longer_runs
from ..runs import TOP, Run, stream_of, serve, transcripts
from .course import Course, Point, Sizes
from .service import Report, Service

ERRORS = (errno.EIO, errno.EINTR)
SMALL = Sizes(7, 5)
TRANSCRIPTS = ("each kind is added", "names of declared types", "no request",
               "what is published is taken")
# The longer runs are read in pieces of some lines, and then with as much as the program asks for.
LONGER = (Sizes(256, 64), Sizes(65_536, 1000))
FAILED = 3
# For a longer run, letting each read and write fail in turn would take minutes.
MOST_LINES = 5_000

Job = Callable[[], Report]


@dataclass(frozen=True)
class Case:
    """An input, the output if nothing is broken, and the number of bytes that a call moves."""

    service: Service
    name: str
    given: bytes
    honest: bytes
    sizes: Sizes

    @cached_property
    def course(self) -> Course:
        return Course(self.given, self.honest, self.sizes)

    @property
    def end(self) -> Point:
        return self.course.point()

    def judge(self, fault: str, end: Point, **breaks: int) -> Report:
        """Runs the service. Checks that it makes the calls up to a point, and that it ends there
        with the fault, or with status 0 if there is none."""
        report = Report()
        told = self.service.run(self.given, self.sizes, **breaks)
        status, err = (FAILED, f"ctfd: {fault}\n") if fault else (0, "")
        well = told.has_ended(status, err) and told.came_to(end, self.honest)
        report.add(f"{self.name}, {self.sizes}, {breaks}, wanted {end}", well, told)
        return report

    def judge_honest(self) -> Report:
        """Few bytes per call change nothing; before each read, all replies so far are written."""
        report = self.judge("", self.end)
        told = self.service.run(self.given, self.sizes, READS_TOLD=1)
        wanted = [point.written for point in self.course.reads]
        report.add(f"{self.name}, written before each read", told.before_reads == wanted, told)
        return report

    def failures(self) -> Iterator[Job]:
        """Each call fails in turn; the failed one is the last of its sort."""
        for number, point in enumerate(self.course.reads, 1):
            end = replace(point, reads=number)
            for error in ERRORS:
                yield partial(self.judge, "Read", end, READ_FAILS=number, FAILS_BY=error)
        for number, point in enumerate(self.course.writes, 1):
            end = replace(point, writes=number)
            for error in ERRORS:
                yield partial(self.judge, "Write", end, WRITE_FAILS=number, FAILS_BY=error)
            yield partial(self.judge, "Write", end, WRITE_EMPTY=number)

    def bounds(self) -> Iterator[Job]:
        """Each bound below the number of needed reads ends the run before the next read; greater
        bounds change nothing."""
        needed = len(self.course.reads)
        for bound in range(1, needed):
            yield partial(self.judge, "ReadBound", self.course.reads[bound], READ_BOUND=bound)
        for bound in (needed, needed + 1):
            yield partial(self.judge, "", self.end, READ_BOUND=bound)


def longest(runs: Iterator[Run], many: int) -> list[Run]:
    """The runs with the most lines, except for those with more than `MOST_LINES`."""
    fit = (run for run in runs if len(run.lines) <= MOST_LINES)
    return sorted(fit, key=lambda run: len(run.lines))[-many:]


def inputs() -> Iterator[tuple[str, bytes, Sizes]]:
    """The inputs: the first run, also without its last newline, and some of the transcripts; then
    longer runs, the two longest transcripts and the two with all words."""
    first = (TOP / "examples" / "first.jsonl").read_bytes()
    small = {"first.jsonl": first, "first.jsonl without its last newline": first[:-1]}
    chosen = (run for run in transcripts() if run.title in TRANSCRIPTS)
    small.update((run.title, stream_of(run.lines)) for run in chosen)
    for name, given in small.items():
        yield name, given, SMALL
    for run in (*longest(transcripts(), 2), *longer_runs()):
        for sizes in LONGER:
            yield f"{run.title}, {sizes.read} and {sizes.write}", stream_of(run.lines), sizes


INPUTS = {name: (given, sizes) for name, given, sizes in inputs()}


@pytest.fixture(scope="module")
def service(program: str, tmp_path_factory: pytest.TempPathFactory) -> Service:
    """The program, with the compiled broken.c, which breaks its streams."""
    if not shutil.which("cc"):
        pytest.skip("no C compiler here")
    made = tmp_path_factory.mktemp("streams") / "broken.so"
    subprocess.run(["cc", "-O2", "-Wall", "-Wextra", "-shared", "-fPIC", "-o", str(made),
                    str(Path(__file__).with_name("broken.c"))], check=True)
    return Service(program, str(made))


def wrong(jobs: Iterator[Job]) -> int:
    """The number of errors in all jobs, run two at a time."""
    with ThreadPoolExecutor(2) as two:
        return sum(report.wrong for report in two.map(lambda job: job(), list(jobs)))


@pytest.fixture
def case(service: Service, name: str) -> Case:
    given, sizes = INPUTS[name]
    return Case(service, name, given, serve(service.program, given).out, sizes)


@pytest.mark.parametrize("name", INPUTS)
def test_little_a_call(case: Case) -> None:
    assert case.judge_honest().wrong == 0


@pytest.mark.parametrize("name", INPUTS)
def test_each_call_fails(case: Case) -> None:
    assert wrong(case.failures()) == 0


@pytest.mark.parametrize("name", INPUTS)
def test_each_bound_on_reads(service: Service, case: Case) -> None:
    if why := service.why_unbounded():
        pytest.skip(f"bounds on reads, since {why}")
    assert wrong(case.bounds()) == 0
