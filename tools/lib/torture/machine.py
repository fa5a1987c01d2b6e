"""The group as tools/torture sees it: presses and fields in, notices and outputs out.

Two machines have the same interface: `serve` as a child, and the C library in this process, where build/libliftplc.a
is there. Both are started anew for each scenario, and both give the same answers, since the library's round is that of
`serve`.
"""
from __future__ import annotations

import ctypes, os, struct, subprocess, tempfile
from typing import NamedTuple, Protocol, Sequence

from lib.building import Controller, Trouble

CarFields = tuple[int, bool, bool, bool, bool, bool]  # POS, LEVEL, TOP, BOTTOM, LOCKED, OPENED
Call = tuple[int, int]  # from, to
VERSION = 3  # of include/liftplc.h
OK, ALREADY = 0, 6  # statuses of the C library
STRUCTS = {"fields": 56, "outputs": 3736}  # bytes
CARS_AT, NOTICES_AT, NOTICE = 3, 1048, struct.Struct("<QBBBBBBxx")  # in liftplc_outputs
MOST_CARS = 8


class Fields(NamedTuple):
    """What the plant reports."""

    now: int  # ms
    limit: int
    fire: bool
    cars: Sequence[CarFields]  # car 1 first


class Answer(NamedTuple):
    """Of a round. An answer that is the same as that of the round before is the same object."""

    is_new: tuple[bool, ...]  # of each press, whether it wasn't on the desk already
    notices: tuple[
        tuple, ...
    ]  # ("entered", ticket, slot, from, to), ("denied", car, rule), ("told", ticket, car), ("served", ticket, car)
    outputs: tuple[tuple[int, int], ...]  # motor and open command of each car


class Machine(Protocol):
    def round(self, presses: Sequence[Call], fields: Fields) -> Answer:
        """Presses, and a round."""

    def close(self):
        """Ends it."""


def car_text(car: CarFields) -> bytes:
    return b" %d %d%d%d%d%d" % car


def round_text(presses: Sequence[Call], fields: Fields) -> bytes:
    """The lines of docs/SERVE.md for it."""
    lines = b"".join([b"P %d %d\n" % press for press in presses])
    cars = b"".join([car_text(car) for car in fields.cars])
    return b"%sR %d %d %d%s\n" % (lines, fields.now, fields.limit, fields.fire, cars)


def answer_of(text: bytes) -> Answer:
    """Of the lines of `serve`."""
    is_new, notices, outputs = [], [], ()
    for line in text.decode("ascii").splitlines():
        kind, *words = line.split(" ")
        if kind == "press":
            is_new.append(words[2] == "new")
        elif kind == "outputs":
            numbers = list(map(int, words))
            outputs = tuple(zip(numbers[::2], numbers[1::2]))
        else:
            notices.append((kind, *map(int, words)))
    return Answer(tuple(is_new), tuple(notices), outputs)


class ServeMachine:
    """`serve` as a child. The R line has the texts of cars that were made before, and an answer is parsed where it is
    a new one.
    """

    def __init__(self, binary: str, file: str, trace: str | None = None):
        self.serve = Controller([binary, "serve", file, *(["--trace", trace] if trace else [])])
        self.texts: dict[CarFields, bytes] = {}
        self.last = b"", Answer((), (), ())

    def round(self, presses: Sequence[Call], fields: Fields) -> Answer:
        for car in fields.cars:
            if car not in self.texts:
                self.texts[car] = car_text(car)
        cars = b"".join([self.texts[car] for car in fields.cars])
        line = b"R %d %d %d%s\n" % (fields.now, fields.limit, fields.fire, cars)
        heard = self.serve.ask(b"".join([b"P %d %d\n" % press for press in presses]) + line if presses else line)
        if heard != self.last[0]:
            self.last = heard, answer_of(heard)
        return self.last[1]

    def close(self):
        """Where the end isn't heard, it is killed."""
        try:
            self.serve.stop()
        except Trouble:
            self.serve.kill()


def shared_object(archive: str, folder: str) -> str:
    """The archive as a shared object in this folder; a Trouble where `cc` makes none."""
    made = f"{folder}/libliftplc.so"
    words = ["cc", "-shared", "-Wl,--whole-archive", archive, "-Wl,--no-whole-archive", "-o", made]
    try:
        done = subprocess.run(
            words, stdin=subprocess.DEVNULL, stdout=subprocess.PIPE, stderr=subprocess.STDOUT, text=True
        )
    except OSError as why:
        raise Trouble(3, f"cannot start cc: {why.strerror}") from why
    if done.returncode:
        raise Trouble(
            3, f"cc makes no shared object of {archive}: {(done.stdout.splitlines() or ['it says nothing'])[-1]}"
        )
    return made


class Library:
    """The C library, loaded."""

    def __init__(self, shared: str):
        try:
            self.calls = ctypes.CDLL(shared)
            version = self.calls.liftplc_version()
        except (OSError, AttributeError) as why:
            raise Trouble(3, f"cannot load {shared}: {why}") from why
        if version != VERSION:
            raise Trouble(3, f"{shared} is of another version: {version}, and not {VERSION}")
        byte, pointer = ctypes.c_uint8, ctypes.c_void_p
        self.calls.liftplc_open.argtypes = [pointer, ctypes.c_char_p, ctypes.c_size_t, pointer]
        self.calls.liftplc_close.argtypes = [pointer]
        self.calls.liftplc_press.argtypes = [pointer, byte, byte]
        self.calls.liftplc_round.argtypes = [pointer, pointer, pointer]
        for name in ("open", "close", "press", "round"):
            getattr(self.calls, f"liftplc_{name}").restype = ctypes.c_uint32


class LibraryMachine:
    """A handle of the C library. What it reads and writes are buffers of the header's structs."""

    def __init__(self, library: Library, text: bytes):
        self.calls = library.calls
        self.handle, self.refusal = (ctypes.c_uint64 * 2)(), (ctypes.c_uint32 * 3)()
        self.fields, self.outputs = bytearray(STRUCTS["fields"]), bytearray(STRUCTS["outputs"])
        self.read = (ctypes.c_char * len(self.fields)).from_buffer(self.fields)
        self.written = (ctypes.c_char * len(self.outputs)).from_buffer(self.outputs)
        self.last = b"", Answer((), (), ())
        if status := self.calls.liftplc_open(self.handle, text, len(text), self.refusal):
            raise Trouble(2, f"the library does not open the text: status {status}")

    def round(self, presses: Sequence[Call], fields: Fields) -> Answer:
        is_new = tuple([self.press(*press) for press in presses])
        cars = [number for car in fields.cars for number in car]
        struct.pack_into(
            f"<IBBB{len(cars)}B", self.fields, 0, fields.now, fields.limit, fields.fire, len(fields.cars), *cars
        )
        if status := self.calls.liftplc_round(self.handle, self.read, self.written):
            raise Trouble(5, f"the library refuses a round: status {status}")
        count = self.outputs[2]
        now = bytes(self.outputs[: CARS_AT + 2 * MOST_CARS])
        if presses or count or now != self.last[0] or self.last[1].notices or self.last[1].is_new:
            self.last = now, Answer(is_new, self.notices(count), self.car_outputs(len(fields.cars)))
        return self.last[1]

    def press(self, start: int, goal: int) -> bool:
        status = self.calls.liftplc_press(self.handle, start, goal)
        if status not in (OK, ALREADY):
            raise Trouble(5, f"the library refuses a press from {start} to {goal}: status {status}")
        return status == OK

    def car_outputs(self, cars: int) -> tuple[tuple[int, int], ...]:
        numbers = struct.unpack_from(f"<{'bB' * cars}", self.outputs, CARS_AT)
        return tuple(zip(numbers[::2], numbers[1::2]))

    def notices(self, count: int) -> tuple[tuple, ...]:
        made = []
        for at in range(count):
            ticket, kind, car, rule, slot, start, goal = NOTICE.unpack_from(self.outputs, NOTICES_AT + NOTICE.size * at)
            notice = (
                ("entered", ticket, slot, start, goal),
                ("denied", car, rule),
                ("told", ticket, car),
                ("served", ticket, car),
            )[kind - 1]
            made.append(notice)
        return tuple(made)

    def close(self):
        self.calls.liftplc_close(self.handle)


class Maker:
    """Opens the machines of one FILE. `library` is the archive or shared object of the C library, or empty for
    `serve`.
    """

    def __init__(self, binary: str, file: str, library: str = ""):
        self.binary, self.file, self.library, self.loaded = binary, file, library, None
        with open(file, "rb") as text:
            self.text = text.read()

    def opened(self, trace: str | None = None) -> Machine:
        """A group as it opens; `serve` alone writes a trace."""
        if not self.library or trace:
            return ServeMachine(self.binary, self.file, trace)
        if self.loaded is None:
            with tempfile.TemporaryDirectory(prefix="torture-") as folder:
                is_archive = self.library.endswith(".a")
                self.loaded = Library(
                    shared_object(self.library, folder) if is_archive else os.path.realpath(self.library)
                )
        return LibraryMachine(self.loaded, self.text)
