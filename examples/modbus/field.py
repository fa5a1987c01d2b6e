#!/usr/bin/python3
"""A field for gateways/modbus: the registers of docs/MODBUS.md before a small simulated plant, with the watchdog that a field owes.

usage: examples/modbus/field.py [--port PORT] [--cars N] [--floors N] [--run-limit N]         (default: 5020, 2, 8, N of --cars)

It needs Debian's python3-pymodbus 3.0.0, and listens on 127.0.0.1. A line such as `6 2` on standard input presses the call from floor 6 to floor 2; `fire 1`
and `fire 0` switch the recall. A line is printed of each car that changes, of each display, and where the field stops the motors itself. The end of the input
ends it once the cars stand still and no display is lit, or after a minute.

The plant is that of docs/TRACE.md: a tenth of a floor a step, a door of five steps. It makes a step at each write of the outputs. A real plant moves by itself;
this one can't run away from a gateway that is late.
"""
from __future__ import annotations

import argparse, asyncio, logging, os, socket, sys, threading, time

from pymodbus.datastore import ModbusSequentialDataBlock, ModbusServerContext, ModbusSlaveContext
from pymodbus.server import StartAsyncTcpServer

sys.dont_write_bytecode = True
TOP = os.path.dirname(os.path.dirname(os.path.dirname(os.path.realpath(__file__))))
sys.path.insert(0, f"{TOP}/tools")
from lib.plant import Plant

RUN_LIMIT, FIRE, CARS, OUTPUTS, STATE, DISPLAYS, WIDTH = 0, 1, 2, 32, 49, 64, 16  # of docs/MODBUS.md
REGISTERS = 512
MOTORS = {0: 0, 1: 1, 65_535: -1}
WATCHDOG = 1.0  # s
LOOKS = 0.02  # s, of the watchdog
LONGEST_END = 60  # s
WAYS = {0: "", 1: ", motor up", -1: ", motor down"}


class Registers(ModbusSequentialDataBlock):
    """Holding registers that tell their field what was written."""

    def __init__(self, field: Field):
        super().__init__(0, [0] * REGISTERS)
        self.field = field

    def setValues(self, address: int, values: list[int]):
        super().setValues(address, values)
        self.field.written(address, values)


class Field:
    """The plant behind registers and coils."""

    def __init__(self, cars: int = 2, floors: int = 8, watchdog: float = WATCHDOG):
        self.cars, self.watchdog, self.plant, self.lock = cars, watchdog, Plant(cars, floors), threading.RLock()
        self.registers, self.coils = Registers(self), ModbusSequentialDataBlock(0, [False] * REGISTERS)
        self.displays = [0] * (WIDTH * WIDTH)
        self.beat_at: float | None = None  # when the outputs were written last; None where the motors are stopped
        self.put(RUN_LIMIT, [cars, 0])
        self.publish()
        threading.Thread(target=self.watch, daemon=True).start()

    def get(self, address: int, count: int = 1) -> list[int]:
        return self.registers.getValues(address, count)

    def put(self, address: int, values: list[int]):
        """Of the field itself."""
        ModbusSequentialDataBlock.setValues(self.registers, address, values)

    def motors(self) -> list[int]:
        return self.get(OUTPUTS + 1, 2 * self.cars)[::2]

    def outputs(self) -> list[tuple[int, int]]:
        """Motor and open command of each car."""
        outputs = self.get(OUTPUTS + 1, 2 * self.cars)
        return [(MOTORS[motor], opens) for motor, opens in zip(outputs[::2], outputs[1::2])]

    def press(self, start: int, goal: int):
        self.coils.setValues(WIDTH * (start - 1) + goal - 1, [True])

    def publish(self):
        """The sensors."""
        for k, (floor, flags) in enumerate(self.plant.reported()):
            self.put(CARS + 2 * k, [floor, int("".join(str(int(flag)) for flag in flags), 2)])

    def written(self, address: int, values: list[int]):
        """By the gateway."""
        with self.lock:
            if address == OUTPUTS:
                self.beat_at = time.monotonic()
                self.plant.step(self.outputs())
                self.publish()
                self.moved()
            elif address >= DISPLAYS:
                for at, car in enumerate(values, address - DISPLAYS):
                    if self.displays[at] != car:
                        self.displays[at] = car
                        self.lit(at // WIDTH + 1, at % WIDTH + 1, car)

    def watch(self):
        while True:
            time.sleep(LOOKS)
            with self.lock:
                if self.beat_at and time.monotonic() - self.beat_at > self.watchdog:
                    self.stop()

    def stop(self):
        """No heartbeat came for too long."""
        self.put(OUTPUTS + 1, [0] * (2 * self.cars))
        self.beat_at = None

    def moved(self):
        """A step was made."""

    def lit(self, start: int, goal: int, car: int):
        """A display shows this car, or none where it is 0."""

    def serve(self, port: int):
        """Listens in a thread of its own, for as long as the process runs."""
        socket.create_server(("127.0.0.1", port)).close()  # pymodbus says nothing where the port is taken
        context = ModbusServerContext(slaves=ModbusSlaveContext(co=self.coils, hr=self.registers, zero_mode=True), single=True)
        server = StartAsyncTcpServer(context, address=("127.0.0.1", port), allow_reuse_address=True)
        threading.Thread(target=lambda: asyncio.run(server), daemon=True).start()


class Shown(Field):
    """One that prints what changes."""

    def __init__(self, cars: int, floors: int):
        self.last = [""] * cars
        super().__init__(cars, floors)

    def moved(self):
        for k, ((floor, flags), (motor, _)) in enumerate(zip(self.plant.reported(), self.outputs())):
            level, _, _, locked, opened = flags
            door = "open" if opened else "shut" if locked else "moves"
            said = f"car {k + 1} at floor {floor}{', level' if level else ''}, door {door}{WAYS[motor]}"
            if said != self.last[k]:
                self.last[k] = said
                print(said, flush=True)

    def lit(self, start: int, goal: int, car: int):
        print(f"display at floor {start} for floor {goal}: {f'car {car}' if car else 'dark'}", flush=True)

    def stop(self):
        if any(self.motors()):
            print("no heartbeat: the field stops the motors", flush=True)
        super().stop()

    def rests(self) -> bool:
        with self.lock:
            return not any(self.motors()) and not any(self.displays) and not any(self.coils.getValues(0, WIDTH * WIDTH))


def hear(field: Field, line: str):
    words = line.split()
    if len(words) == 2 and words[0] == "fire" and words[1] in ("0", "1"):
        field.put(FIRE, [int(words[1])])
    elif len(words) == 2 and all(word.isdigit() and 1 <= int(word) <= WIDTH for word in words):
        field.press(int(words[0]), int(words[1]))
    elif words:
        print("field: a line is FROM TO, fire 1 or fire 0", file=sys.stderr)


def main():
    words = argparse.ArgumentParser(prog="field", description="A field for gateways/modbus; docs/MODBUS.md has its registers.")
    words.add_argument("--port", type=int, default=5020)
    words.add_argument("--cars", type=int, choices=range(1, 9), default=2)
    words.add_argument("--floors", type=int, choices=range(2, 17), default=8)
    words.add_argument("--run-limit", type=int, default=0)
    given = words.parse_args()
    logging.disable(logging.CRITICAL)  # of pymodbus
    field = Shown(given.cars, given.floors)
    if given.run_limit:
        field.put(RUN_LIMIT, [given.run_limit])
    try:
        field.serve(given.port)
    except (OSError, OverflowError) as why:
        sys.exit(f"field: port {given.port} of 127.0.0.1: {why}")
    try:
        for line in sys.stdin:
            hear(field, line)
        end = time.monotonic() + LONGEST_END
        while time.monotonic() < end and (time.sleep(0.5) or not field.rests()):
            pass
    except KeyboardInterrupt:
        pass
    sys.stdout.flush()
    os._exit(0)  # the server's thread doesn't end


if __name__ == "__main__":
    main()
