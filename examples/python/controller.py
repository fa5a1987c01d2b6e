#!/usr/bin/env python3
"""The controller of examples/c in Python, by ctypes over a shared object (docs/C_LIBRARY.md says how it is linked).

usage: controller.py LIBRARY FILE CARS FLOORS ROUNDS [--clock] [ROUND:FROM:TO ..]
"""
import ctypes as c
import sys
import time

PERIOD = 0.1  # seconds
PATIENCE = 0.5
VERSION = 3
ENTERED, NO_FLOOR = 1, 7


def struct(name, **fields):
    return type(name, (c.Structure,), {"_fields_": [(field, kind) for field, kind in fields.items()]})


U8, U32, U64, BOOL = c.c_uint8, c.c_uint32, c.c_uint64, c.c_bool
Handle = struct("Handle", world=c.c_void_p, is_open=BOOL)
Refusal = struct("Refusal", number=c.c_uint16, line=U32, offset=U32)
Car = struct("Car", pos=U8, level=BOOL, top=BOOL, bottom=BOOL, locked=BOOL, opened=BOOL)
Fields = struct("Fields", time=U32, run_limit=U8, fire=BOOL, car_count=U8, cars=Car * 8)
CarOutput = struct("CarOutput", motor=c.c_int8, opens=BOOL)
Slot = struct("Slot", ticket=U64, state=U8, source=U8, to=U8, car=U8)
Notice = struct("Notice", ticket=U64, kind=U8, car=U8, rule=U8, slot=U8, source=U8, to=U8)
Outputs = struct("Outputs", car_count=U8, slot_count=U8, notice_count=U8, cars=CarOutput * 8, slots=Slot * 64, notices=Notice * 168)


class Controller:
    """A controller that is open. The handle lives as long as this object, and isn't copied."""

    def __init__(self, library, text):
        self.library = c.CDLL(library)
        if self.library.liftplc_version() != VERSION:
            raise OSError(f"{library} is of another version")
        pointer = c.POINTER
        self.library.liftplc_open.argtypes = [pointer(Handle), c.c_char_p, c.c_size_t, pointer(Refusal)]
        self.library.liftplc_close.argtypes = [pointer(Handle)]
        self.library.liftplc_press.argtypes = [pointer(Handle), U8, U8]
        self.library.liftplc_round.argtypes = [pointer(Handle), pointer(Fields), pointer(Outputs)]
        self.library.liftplc_budget.argtypes = [pointer(Handle), U8]
        for function in ("open", "close", "press", "round", "budget", "version"):
            getattr(self.library, f"liftplc_{function}").restype = U32
        self.handle, refusal = Handle(), Refusal()
        status = self.library.liftplc_open(self.handle, text, len(text), refusal)
        if status:
            raise ValueError(f"refused {refusal.number} at line {refusal.line}" if status == 1 else f"status {status}")

    def press(self, source, to):
        # (U8 would take a number modulo 256)
        return self.library.liftplc_press(self.handle, source, to) if 0 <= source <= 255 and 0 <= to <= 255 else NO_FLOOR

    def round(self, fields, outputs):
        return self.library.liftplc_round(self.handle, fields, outputs)

    def budget(self, task):
        return self.library.liftplc_budget(self.handle, task)

    def close(self):
        return self.library.liftplc_close(self.handle)


def within(low, high, number):
    return min(max(number, low), high)


def moved(place, door, output, floors):
    """One step of 100 ms of a car: its place, ten to a floor, and its door, from 0, shut, to 5, open."""
    return within(-10, 10 * floors, place + output.motor), within(0, 5, door + (1 if output.opens else -1))


def reported(place, door, floors):
    return Car(within(1, floors, (place + 5) // 10 + 1), place % 10 == 0, place >= 10 * (floors - 1), place <= 0, door == 0, door == 5)


def traced(controller, fields, outputs):
    """The lines of a round."""
    cars = fields.car_count
    for n in outputs.notices[: outputs.notice_count]:
        if n.kind == ENTERED:
            yield f"P {n.source} {n.to}"
            yield f"G {n.source}"
    seen = "".join(f" {f.pos} {f.level:d}{f.top:d}{f.bottom:d}{f.locked:d}{f.opened:d}" for f in fields.cars[:cars])
    yield f"R {fields.time} {fields.run_limit} {fields.fire:d}{seen}"
    for task in [*range(1, cars + 1), 0]:
        if controller.budget(task):
            yield f"S {task}"
            yield f"C {task}"


def main(library, file, cars, floors, rounds, *words):
    cars, floors, by_clock = int(cars), int(floors), words[:1] == ("--clock",)
    presses = [tuple(map(int, word.split(":"))) for word in words[by_clock:]]
    with open(file, "rb") as of:
        controller = Controller(library, of.read())
    fields, outputs, plant, lines = Fields(run_limit=cars, car_count=cars), Outputs(), [(0, 0)] * cars, []
    due = time.monotonic()
    for number in range(1, int(rounds) + 1):
        due += PERIOD
        if by_clock:
            late = time.monotonic() - due
            if late > PATIENCE:  # a field's own watchdog has stopped the motors before
                sys.exit("stop")
            time.sleep(max(-late, 0))
        fields.time = int(due * 1000) & 0x7FFFFFFF if by_clock else 100 * number
        for at, source, to in presses:
            if at == number and controller.press(source, to) >= NO_FLOOR:
                print(f"no call {source} {to}", file=sys.stderr)
        plant = [moved(place, door, outputs.cars[i], floors) for i, (place, door) in enumerate(plant)]
        for i, (place, door) in enumerate(plant):
            fields.cars[i] = reported(place, door, floors)
        if status := controller.round(fields, outputs):
            sys.exit(f"stop: status {status}")
        lines += traced(controller, fields, outputs)
    print("\n".join(["LIFTTRACE 2", *lines, f"E {len(lines)}"]))
    sys.exit(controller.close())


if __name__ == "__main__":
    main(*sys.argv[1:])
