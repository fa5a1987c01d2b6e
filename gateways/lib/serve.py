"""`liftplc serve` as the child of a gateway: finds the program, starts it, sends it lines, reads its answers in time,
ends it.

A gateway has these steps; docs/SERVE.md shows one whole, and what it owes besides:

    with Serve([find_program().path, "serve", "my.il"], watchdog=0.5) as serve:
        answer = serve.round(clock.now(), 2, False, sensors)

A time is in seconds of time.monotonic(), NOW is in milliseconds. Names of the lines are those of docs/SERVE.md.
"""
from __future__ import annotations

import contextlib, os, re, select, shutil, subprocess, time
from dataclasses import dataclass
from typing import Callable, NamedTuple, Sequence

TOP = os.path.dirname(os.path.dirname(os.path.dirname(os.path.realpath(__file__))))
MOST_NOW = 2_147_483_647  # ms
READ_AT_ONCE = 65_536  # bytes
MOST_SAID = 64  # lines of standard error that are kept
LONGEST_NAME = 126  # bytes of a trace that `keep` names
NAP = 0.05  # s between two calls of what waits


class NoProgram(Exception):
    """There is none; one line says why."""


class NoAnswer(Exception):
    """serve gave no answer in time. It is killed."""


class Ended(Exception):
    """serve has stopped or ended. `status` is its own, below 0 for a signal; `refused` is the number of its refusal, or
    0.
    """

    def __init__(self, why: str, status: int, refused: int):
        super().__init__(why)
        self.status, self.refused = status, refused


@dataclass(frozen=True)
class Program:
    path: str
    is_proved: bool

    def is_slow(self) -> bool:
        """Whether it is the unproved build of a first call."""
        return not self.is_proved and os.path.basename(os.path.dirname(self.path)) == "unproved"


def find_program(named: str = "") -> Program:
    """The program of this name or path, or else what ./liftplc would use: the proved one in build/, or an unproved one,
    first the optimised.
    """
    if named:
        found = shutil.which(named)
        if not found or not is_program(found):
            raise NoProgram(f"{named} is no program")
        return Program(found, True)
    build = os.environ.get("LIFTPLC_BUILD") or f"{TOP}/build"
    for path, is_proved in (
        (f"{build}/liftplc", True),
        (f"{build}/optimised/liftplc", False),
        (f"{build}/unproved/liftplc", False),
    ):
        if is_program(path):
            return Program(path, is_proved)
    raise NoProgram(f"{build} has no program: run ./liftplc check FILE (unproved, in minutes) or ./liftplc --prove")


def is_program(path: str) -> bool:
    return os.path.isfile(path) and os.access(path, os.X_OK) and os.path.getsize(path) > 0


class Clock:
    """NOW. After 2147483647 ms, which is 24.8 days, it goes on at 0."""

    def __init__(self, first: int = 0):
        self.first, self.start = first, time.monotonic()

    def now(self) -> int:
        return self.at(time.monotonic())

    def at(self, moment: float) -> int:
        return (self.first + int(1000 * (moment - self.start))) % (MOST_NOW + 1)


class Entered(NamedTuple):
    """A call is in a call slot."""

    ticket: int
    slot: int
    start: int
    goal: int


class Denied(NamedTuple):
    """The interlock denied the car what it did or asked for."""

    car: int
    rule: int


class Told(NamedTuple):
    """A call is assigned to the car."""

    ticket: int
    car: int


class Served(NamedTuple):
    """The car served the call, and its slot is free."""

    ticket: int
    car: int


Notice = Entered | Denied | Told | Served
KINDS: dict[str, type] = {"entered": Entered, "denied": Denied, "told": Told, "served": Served}


class Output(NamedTuple):
    """What a car's plant has to do: motor 1 up, -1 down, 0 still; whether the door opens."""

    motor: int
    opens: bool


@dataclass(frozen=True)
class Answer:
    """Of a round."""

    notices: list[Notice]
    outputs: list[Output]  # car 1 first


def round_line(now: int, limit: int, fire: int, cars: Sequence[tuple[int, Sequence[bool]]]) -> str:
    """The R line. A car is its POS, and its LEVEL, TOP, BOTTOM, LOCKED and OPENED."""
    fields = (f" {pos} {''.join(str(int(flag)) for flag in flags)}" for pos, flags in cars)
    return f"R {now} {limit} {int(fire)}{''.join(fields)}"


def answer_of(lines: bytes) -> Answer:
    """Of the lines that answer an R line."""
    *notices, last = (line.split(" ") for line in lines.decode("ascii").splitlines())
    return Answer([KINDS[kind](*map(int, numbers)) for kind, *numbers in notices if kind in KINDS], outputs_of(last))


def can_keep(name: str) -> bool:
    """Whether a K line can have this name: UTF-8, on one line, and not too long."""
    named = os.fsencode(name)
    return (
        0 < len(named) <= LONGEST_NAME
        and b"\n" not in named
        and named.decode("utf-8", "replace").encode("utf-8") == named
    )


def outputs_of(words: Sequence[str]) -> list[Output]:
    return [Output(int(motor), opens == "1") for motor, opens in zip(words[1::2], words[2::2])]


class Serve:
    """A child that answers lines.

    With a watchdog each answer has so many seconds. What the child says on standard error goes to `hears`, line by
    line, or else to the standard error of this process. It has a session of its own, so that an interrupt from the
    keyboard reaches the gateway alone, and it ends where its input does.
    """

    def __init__(self, words: Sequence[str], watchdog: float | None = None, hears: Callable[[str], None] | None = None):
        self.watchdog, self.hears = watchdog, hears
        self.heard, self.error = b"", b""  # of the output, of standard error
        self.said: list[str] = []  # whole lines of standard error
        errors = subprocess.PIPE if hears else None
        # Python ignores SIGXFSZ, and so does the child then: a trace that gets too large is one that can't be written.
        self.process = subprocess.Popen(
            list(words),
            bufsize=0,
            stdin=subprocess.PIPE,
            stdout=subprocess.PIPE,
            stderr=errors,
            restore_signals=False,
            start_new_session=True,
        )
        assert self.process.stdin and self.process.stdout  # as asked for
        self.input = self.process.stdin
        self.into, self.out = self.input.fileno(), self.process.stdout.fileno()
        self.err = self.process.stderr.fileno() if self.process.stderr else None

    def __enter__(self) -> Serve:
        return self

    def __exit__(self, *_: object):
        self.close()

    def round(
        self, now: int, limit: int, fire: int, cars: Sequence[tuple[int, Sequence[bool]]], until: float | None = None
    ) -> Answer:
        return self.answer(round_line(now, limit, fire, cars), until)

    def answer(self, line: str, until: float | None = None) -> Answer:
        """Of an R line. Where serve stops at it the outputs are the stop, and the next line finds that it has ended."""
        return answer_of(self.ask(f"{line}\n".encode("ascii"), until))

    def press(self, start: int, goal: int, until: float | None = None) -> str:
        """`new`, `already`, or `refused` with its number."""
        answer = self.ask(f"P {start} {goal}\n".encode("ascii"), until, (b"press", b"outputs"))
        if not answer.startswith(b"press"):
            raise self.ended()
        return answer.decode("ascii").rstrip("\n").split(" ", 3)[3]

    def keep(self, name: str, until: float | None = None, waits: Callable[[], None] | None = None) -> bool:
        """The present trace ends, and the group goes on in `name`, a new file. Whether it does: where that can't be
        made, the present trace goes on.

        `waits` is called again and again until the answer is there or time is over: a busy disk may take longer to make
        a file than to take a round. The next line has to be a round: a trace without one is passed over at a start, and
        so would be the presses in it.
        """
        if not can_keep(name):
            raise ValueError(f"{name!r} can't be in a K line")
        named, until = os.fsencode(name), self.deadline(until)
        self.say(b"K %s\n" % named)
        while waits and not select.select([self.out], [], [], NAP)[0] and (until is None or time.monotonic() < until):
            waits()
        answer = self.hear(until, (b"kept", b"outputs"))
        if not answer.startswith(b"kept"):
            raise self.ended()
        return answer == b"kept %s\n" % named

    def ask(self, lines: bytes, until: float | None = None, ends: tuple[bytes, ...] = (b"outputs",)) -> bytes:
        """The answer up to a line that begins so. All of `lines` but the last one are P lines."""
        until = self.deadline(until)
        self.say(lines)
        return self.hear(until, ends)

    def deadline(self, until: float | None) -> float | None:
        """If it isn't given, it is the watchdog's time from now on."""
        return time.monotonic() + self.watchdog if until is None and self.watchdog is not None else until

    def say(self, lines: bytes):
        with contextlib.suppress(BrokenPipeError):  # it has ended: its output says so
            os.write(self.into, lines)

    def hear(self, until: float | None, ends: tuple[bytes, ...]) -> bytes:
        heard = self.read(until)
        while not (heard.endswith(b"\n") and heard.startswith(ends, heard.rfind(b"\n", 0, -1) + 1)):
            heard += self.read(until)
        return heard

    def read(self, until: float | None) -> bytes:
        while until is not None or self.err is not None:
            waits = None if until is None else max(0.0, until - time.monotonic())
            readable, _, _ = select.select([self.out] if self.err is None else [self.out, self.err], [], [], waits)
            if not readable:
                self.kill()
                raise NoAnswer("serve gave no answer in time, and is killed")
            if self.err in readable:
                self.hear_errors()
            if self.out in readable:
                break
        piece = os.read(self.out, READ_AT_ONCE)
        if not piece:
            raise self.ended()
        return piece

    def hear_errors(self):
        """A piece of standard error, which is there or at its end."""
        piece = os.read(self.err, READ_AT_ONCE)
        *lines, self.error = (self.error + piece).split(b"\n")
        if not piece:
            self.err, lines, self.error = None, [self.error] if self.error else [], b""
        for line in lines:
            text = line.decode("utf-8", "backslashreplace")
            self.said = [*self.said, text][-MOST_SAID:]
            self.hears(text)

    def ended(self) -> Ended:
        """What became of it. Its output is at its end, or the stop is its last line."""
        status = self.close()
        while self.err is not None and select.select([self.err], [], [], 0)[0]:
            self.hear_errors()
        # One that was killed said nothing; what is there then is of a child of its own.
        reasons = [line for line in self.said if re.match("refused |cannot |no memory", line)] if status > 0 else []
        why = reasons[-1] if reasons else ""
        number = re.match(r"refused (\d+)", why)
        how = f"by signal {-status}" if status < 0 else f"with status {status}"
        return Ended(f"serve has ended {how}{f': {why}' if why else ''}", status, int(number[1]) if number else 0)

    def stop(self) -> int:
        """Says E, reads the stop, and waits for the end; the answer is serve's status."""
        self.ask(b"E\n")
        return self.close()

    def close(self) -> int:
        """Ends the input, which ends serve; one that doesn't end in the watchdog's time is killed. The answer is its
        status.
        """
        self.input.close()
        with contextlib.suppress(subprocess.TimeoutExpired):
            return self.process.wait(self.watchdog)
        return self.kill()

    def kill(self) -> int:
        self.process.kill()
        return self.process.wait()
