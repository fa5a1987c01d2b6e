"""A field of Modbus/TCP that answers wrongly from some write of the outputs on, for tools/gateway-trial.

It is made from the socket up, since a server that works makes no wrong answers. It has two cars between floors, and no
plant: sensors stay as they are.
"""
from __future__ import annotations

import os, socket, struct, threading, time
from dataclasses import dataclass
from typing import Callable

OUTPUTS, STATE, CARS = 32, 49, 2
READ_COILS, READ_REGISTERS, WRITE_COIL, WRITE_REGISTERS = 1, 3, 5, 16
HEADER = struct.Struct(">HHHB")
LATE, DRIP = 0.8, 0.1  # s


class Close(Exception):
    """The field closes the connection."""


@dataclass
class Request:
    transaction: int
    unit: int
    body: bytes  # from the function on

    @property
    def function(self) -> int:
        return self.body[0]

    def numbers(self) -> tuple[int, int]:
        return struct.unpack(">HH", self.body[1:5])

    def frame(self, answer: bytes, transaction: int = 0, unit: int = 0, size: int = 0) -> bytes:
        return (
            HEADER.pack(self.transaction + transaction & 0xFFFF, 0, size or len(answer) + 1, unit or self.unit) + answer
        )


def of_registers(values: list[int]) -> bytes:
    return bytes([READ_REGISTERS, 2 * len(values) & 0xFF]) + struct.pack(f">{len(values)}H", *values)


def of_coils(values: list[bool]) -> bytes:
    packed = bytearray((len(values) + 7) // 8)
    for at, is_on in enumerate(values):
        packed[at // 8] |= is_on << at % 8
    return bytes([READ_COILS, len(packed)]) + bytes(packed)


def with_value(at: int, value: int) -> Callable[[list[int]], list[int]]:
    return lambda values: [*values[:at], value, *values[at + 1 :]]


# Wrong values of registers, in an answer that is right besides.
VALUES: dict[str, Callable[[list[int]], list[int]]] = {
    "short": lambda values: values[:3],
    "empty": lambda values: [],
    "long": lambda values: values + [7] * 20,
    "outofrange": with_value(2, 99),
    "flags": with_value(3, 0xFFFF),
    "limit": with_value(0, 65_535),
    "fire": with_value(1, 7),
    "pos0": with_value(2, 0),
}
# Wrong frames of an answer that is right besides.
FRAMES: dict[str, Callable[[Request, bytes], bytes]] = {
    "badcount": lambda request, answer: request.frame(answer[:1] + b"\xff" + answer[2:]),
    "badfc": lambda request, answer: request.frame(bytes([4]) + answer[1:]),
    "garbage": lambda request, answer: os.urandom(50),
    "wrongtid": lambda request, answer: request.frame(answer, transaction=5),
    "wrongunit": lambda request, answer: request.frame(answer, unit=99),
    "half": lambda request, answer: request.frame(answer)[:9],
    "hugelen": lambda request, answer: request.frame(answer, size=65_535),
    "twice": lambda request, answer: 2 * request.frame(answer),
}
EXCEPTIONS = {"exc_read": (READ_REGISTERS, 4), "exc_coils": (READ_COILS, 2), "exc_write": (WRITE_REGISTERS, 4)}
SILENCES = {"hang_read": READ_REGISTERS, "hang_coils": READ_COILS, "hang_write": WRITE_REGISTERS}
CLOSES = {"close_read": READ_REGISTERS, "close_write": WRITE_REGISTERS}
LATES = {"late_read": READ_REGISTERS, "late_write": WRITE_REGISTERS}
COILS = {"allcoils": 256, "morecoils": 2032}  # how many are answered, all pressed


class BadField:
    """Listens until the process ends. `kind` comes at each request that it fits, or once, after so many writes of the
    outputs.
    """

    def __init__(self, kind: str = "", is_once: bool = False, after: int = 15, host: str = "127.0.0.1"):
        self.kind, self.is_once, self.after = kind, is_once, after
        self.registers, self.coils = [0] * 400, [False] * 256
        self.registers[0] = CARS
        for k in range(CARS):
            self.registers[2 + 2 * k : 4 + 2 * k] = [3, 0b00010]
        self.delay = 0.0  # of each answer, s
        self.beats = self.connections = 0
        self.writes: list[tuple[float, list[int]]] = []  # of the outputs: when, and the motors
        self.began: float | None = None  # the first wrong answer
        self.others: dict[int, int] = {}  # registers that another client writes at the next request
        family = socket.AF_INET6 if ":" in host else socket.AF_INET
        self.listening = socket.create_server((host, 0), family=family)
        self.port = self.listening.getsockname()[1]
        threading.Thread(target=self.accept, daemon=True).start()

    def motors(self) -> list[int]:
        return self.registers[OUTPUTS + 1 : OUTPUTS + 1 + 2 * CARS : 2]

    def accept(self):
        while True:
            connection, _ = self.listening.accept()
            connection.setsockopt(socket.IPPROTO_TCP, socket.TCP_NODELAY, 1)
            self.connections += 1
            threading.Thread(target=self.answer_all, args=(connection,), daemon=True).start()

    def answer_all(self, connection: socket.socket):
        try:
            while True:
                transaction, _, size, unit = HEADER.unpack(self.read(connection, HEADER.size))
                request = Request(transaction, unit, self.read(connection, size - 1))
                time.sleep(self.delay)
                for piece in self.answer(request):
                    connection.sendall(piece)
        except (EOFError, OSError, Close):
            connection.close()

    def read(self, connection: socket.socket, count: int) -> bytes:
        heard = b""
        while len(heard) < count:
            piece = connection.recv(count - len(heard))
            if not piece:
                raise EOFError
            heard += piece
        return heard

    def is_spoiled(self, request: Request) -> bool:
        """Whether this request gets the wrong answer."""
        if (
            not self.kind
            or self.beats < self.after
            or (self.is_once and self.began)
            or self.function() != request.function
        ):
            return False
        if request.function == WRITE_REGISTERS and request.numbers()[0] != OUTPUTS:
            return False
        self.began = self.began or time.monotonic()
        return True

    def function(self) -> int:
        given = EXCEPTIONS.get(self.kind)
        in_coils = READ_COILS if self.kind in COILS else READ_REGISTERS
        return given[0] if given else {**SILENCES, **CLOSES, **LATES}.get(self.kind, in_coils)

    def answer(self, request: Request):
        """Pieces of bytes."""
        for at, value in self.others.items():
            self.registers[at] = value
        self.others = {}
        if not self.is_spoiled(request):
            yield request.frame(self.right(request))
        elif self.kind in EXCEPTIONS:
            yield request.frame(bytes([request.function | 0x80, EXCEPTIONS[self.kind][1]]))
        elif self.kind in CLOSES:
            raise Close
        elif self.kind in LATES:
            time.sleep(LATE)
            yield request.frame(self.right(request))
        elif self.kind in COILS:
            yield request.frame(of_coils([True] * COILS[self.kind]))
        elif self.kind == "drip":
            for byte in request.frame(self.right(request)):
                yield bytes([byte])
                time.sleep(DRIP)
        elif self.kind in VALUES:
            at, count = request.numbers()
            yield request.frame(of_registers(VALUES[self.kind](self.registers[at : at + count])))
        elif self.kind in FRAMES:
            yield FRAMES[self.kind](request, self.right(request))

    def right(self, request: Request) -> bytes:
        """The right answer, from its function on; writes are done."""
        at, count = request.numbers()
        if request.function == READ_REGISTERS:
            return of_registers(self.registers[at : at + count])
        if request.function == READ_COILS:
            return of_coils(self.coils[at : at + count])
        if request.function == WRITE_COIL:
            self.coils[at] = bool(count)
            return request.body
        self.registers[at : at + count] = struct.unpack(f">{count}H", request.body[6:])
        if at == OUTPUTS:
            self.beats += 1
            self.writes.append((time.monotonic(), self.motors()))
        return request.body[:5]


KINDS = [*EXCEPTIONS, *VALUES, *SILENCES, *LATES, *CLOSES, *FRAMES, "drip", *COILS]
