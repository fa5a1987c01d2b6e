"""The simulated plant of docs/TRACE.md: for each car of a group a shaft, a motor and a door.

Each trial here that simulates such a car uses it. A step is a round of STEP_MS milliseconds. Floors count from 1. A
place is a part of a floor's height: `travel` of them make a floor, and 0 is the landing of floor 1. A motor goes one
place a step: 1 is up, -1 down, 0 still. A door goes one part of its way a step, from 0, shut, to `wide`, wholly open.

Cars that are simulated without it:

- tools/lib/building.py has drives and doors at real speeds, in seconds and metres (docs/BUILDING.md);
- tools/year.c, tools/explore.c and bench/peer.c have this plant in C, since they make millions of rounds;
- examples/c/plant.h and examples/python/controller.py are examples that stand alone;
- tools/lib/torture/plants.py takes the shaft from here, and has its own steps, in which much more can fail.
"""
from __future__ import annotations

from dataclasses import dataclass
from typing import Iterable

STEP_MS = 100  # ms
PLACES_OF_FLOOR = 10
DOOR_OPEN = 5  # steps of a door

Flags = tuple[bool, bool, bool, bool, bool]  # LEVEL, TOP, BOTTOM, LOCKED, OPENED


@dataclass(frozen=True)
class Shaft:
    """How far a car and its door go, and what its sensors report there."""

    floors: int
    travel: int = PLACES_OF_FLOOR  # places of a floor
    wide: int = DOOR_OPEN

    def place_after(self, place: int, motor: int) -> int:
        """A step later; the shaft ends one floor below the lowest landing and one above the highest."""
        return min(max(place + motor, -self.travel), self.travel * self.floors)

    def door_after(self, door: int, opens: int) -> int:
        """A step later."""
        return min(max(door + (1 if opens else -1), 0), self.wide)

    def reported(self, place: int, door: int) -> tuple[int, Flags]:
        """POS, which is the nearest floor, and the flags."""
        pos = min(max((place + self.travel // 2) // self.travel + 1, 1), self.floors)
        is_top = place >= self.travel * (self.floors - 1)
        return pos, (place % self.travel == 0, is_top, place <= 0, door == 0, door == self.wide)


@dataclass
class Car:
    """Where a car is, its last outputs, and what it reports."""

    place: int = 0
    door: int = 0
    motor: int = 0
    opens: bool = False
    pos: int = 1
    level: bool = True
    top: bool = False
    bottom: bool = True
    locked: bool = True
    opened: bool = False


class Plant:
    """The cars of a group, all at floor 1 with shut doors. A `kind` of car may hold more than Car does."""

    def __init__(
        self, cars: int, floors: int, travel: int = PLACES_OF_FLOOR, wide: int = DOOR_OPEN, kind: type[Car] = Car
    ):
        self.shaft = Shaft(floors, travel, wide)
        self.cars = [kind() for _ in range(cars)]

    def step(self, outputs: Iterable[tuple[int, int]]):
        """A step under the motor and the open command of each car."""
        self.take(outputs)
        self.move()

    def take(self, outputs: Iterable[tuple[int, int]]):
        """These outputs hold from now on."""
        for car, (motor, opens) in zip(self.cars, outputs):
            car.motor, car.opens = motor, bool(opens)

    def move(self):
        """A step under the last outputs."""
        for car in self.cars:
            car.place = self.shaft.place_after(car.place, car.motor)
            car.door = self.shaft.door_after(car.door, car.opens)
        self.report()

    def report(self):
        """Makes what the cars report anew."""
        for car in self.cars:
            car.pos, flags = self.shaft.reported(car.place, car.door)
            car.level, car.top, car.bottom, car.locked, car.opened = flags

    def reported(self) -> list[tuple[int, Flags]]:
        """Of each car POS and the flags, as `round_line` of gateways/lib/serve.py takes them."""
        return [(car.pos, (car.level, car.top, car.bottom, car.locked, car.opened)) for car in self.cars]
