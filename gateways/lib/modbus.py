"""A client of Modbus/TCP, of four functions: each answer is whole, right and in time, or it is a fault and the
connection is of no more use.

A time is that of time.monotonic() by which the answer has to be there. Numbers of registers and coils are from 0, as in
the messages. The rules are those of MODBUS Application Protocol 1.1b3 and of MODBUS Messaging on TCP/IP 1.0b.
"""
from __future__ import annotations

import contextlib, socket, struct, time
from typing import Sequence

READ_COILS, READ_REGISTERS, WRITE_COIL, WRITE_REGISTERS = 1, 3, 5, 16
EXCEPTION = 0x80  # of a function's number
COIL_ON = 0xFF00
HEADER = struct.Struct(">HHHB")  # transaction, protocol 0, bytes from the unit on, unit
LEAST, MOST = 3, 254  # bytes from the unit on
EXCEPTIONS = {
    1: "illegal function",
    2: "illegal data address",
    3: "illegal data value",
    4: "device failure",
    5: "acknowledge",
    6: "device busy",
}


class FieldFault(Exception):
    """One line: what the field did."""


class Refused(FieldFault):
    """It answered an exception. The connection is in order."""


def resolved(host: str, port: int) -> Sequence[tuple]:
    """The addresses of a name: family, type, protocol, name, address. It is asked once, since a name server may take
    long.
    """
    try:
        return socket.getaddrinfo(host, port, type=socket.SOCK_STREAM)
    except (OSError, UnicodeError) as why:
        raise FieldFault(f"no address of this name: {getattr(why, 'strerror', None) or why}") from why


class Client:
    """A connection, to the first of these addresses that takes it."""

    def __init__(self, addresses: Sequence[tuple], unit: int, until: float):
        self.unit, self.transaction = unit, 0
        self.is_whole = False  # each request so far has its answer, and nothing else came
        why: object = "no address"
        for family, kind, protocol, _, address in addresses:
            self.socket = socket.socket(family, kind, protocol)
            try:
                self.limit(until)
                self.socket.connect(address)
                self.socket.setsockopt(socket.IPPROTO_TCP, socket.TCP_NODELAY, 1)
                self.is_whole = True
                return
            except OSError as fault:
                why = fault.strerror or str(fault) or "timed out"
                self.socket.close()
        raise FieldFault(f"no connection: {why}")

    def close(self):
        self.is_whole = False
        with contextlib.suppress(OSError):
            self.socket.close()

    def registers(self, at: int, count: int, until: float) -> list[int]:
        answer = self.ask(struct.pack(">BHH", READ_REGISTERS, at, count), until)
        self.check(len(answer) == 2 + 2 * count and answer[1] == 2 * count, f"not {count} registers")
        return list(struct.unpack(f">{count}H", answer[2:]))

    def coils(self, at: int, count: int, until: float) -> list[bool]:
        answer = self.ask(struct.pack(">BHH", READ_COILS, at, count), until)
        size = (count + 7) // 8
        self.check(len(answer) == 2 + size and answer[1] == size, f"not {count} coils")
        return [bool(answer[2 + it // 8] >> it % 8 & 1) for it in range(count)]

    def write_coil(self, at: int, is_on: bool, until: float):
        request = struct.pack(">BHH", WRITE_COIL, at, COIL_ON if is_on else 0)
        self.check(self.ask(request, until) == request, "not what was written")

    def write_registers(self, at: int, values: Sequence[int], until: float):
        request = struct.pack(f">BHHB{len(values)}H", WRITE_REGISTERS, at, len(values), 2 * len(values), *values)
        self.check(self.ask(request, until) == request[:5], "not what was written")

    def ask(self, request: bytes, until: float) -> bytes:
        """The answer, from its function on."""
        if not self.is_whole:
            raise FieldFault("the connection is of no more use")
        self.is_whole = False
        self.transaction = (self.transaction + 1) % 65_536
        try:
            self.limit(until)
            self.socket.sendall(HEADER.pack(self.transaction, 0, len(request) + 1, self.unit) + request)
            transaction, protocol, size, unit = HEADER.unpack(self.read(HEADER.size, until))
            self.check(
                (transaction, protocol, unit) == (self.transaction, 0, self.unit) and LEAST <= size <= MOST,
                "of another request",
            )
            answer = self.read(size - 1, until)
        except TimeoutError as why:
            raise FieldFault("no answer of the field in time") from why
        except OSError as why:
            raise FieldFault(f"the connection is lost: {why.strerror or why}") from why
        if answer[0] == request[0] | EXCEPTION and len(answer) == 2:
            self.is_whole = True
            raise Refused(
                f"the field answered exception {answer[1]}"
                + (f", {EXCEPTIONS[answer[1]]}" if answer[1] in EXCEPTIONS else "")
            )
        self.check(answer[0] == request[0], "of another function")
        self.is_whole = True
        return answer

    def check(self, holds: bool, what: str):
        if not holds:
            self.is_whole = False
            raise FieldFault(f"a wrong answer of the field, {what}")

    def read(self, count: int, until: float) -> bytes:
        heard = b""
        while len(heard) < count:
            self.limit(until)
            piece = self.socket.recv(count - len(heard))
            if not piece:
                raise FieldFault("the field ended the connection")
            heard += piece
        return heard

    def limit(self, until: float):
        left = until - time.monotonic()
        if left <= 0:
            raise TimeoutError
        self.socket.settimeout(left)
