"""The cars of tools/torture: that of the plant of `sim`, and that of tools/building, each with what fails in it.

A car goes one round with `step`. What fails is set from outside; then `show` makes its fields anew. Without faults the
first goes as docs/TRACE.md says, and the second as docs/BUILDING.md says. With wrong sensors a car is asked for what
the interlock would deny; then its drive acts as a safe one: it doesn't move with a door that isn't shut, it doesn't
leave its shaft, and a door opens at a landing alone.
"""
from __future__ import annotations

from functools import cache
from math import ceil
from typing import Protocol

from lib.building import ROUND, Car as Running, Plant, Timetable
from lib.kinematics import Drive, flight
from lib.plant import DOOR_OPEN, PLACES_OF_FLOOR, Shaft
from lib.torture.machine import CarFields

SLOWER = 4  # a slow door goes its way in so many times the rounds
STAY = 40  # rounds that a stop is taken to last, beside the door's way
SENSORS = "LEVEL", "LOCKED", "OPENED"


class TorturedCar(Protocol):
    fields: CarFields  # what it reports
    landing: int  # the floor at which it stands with its door wholly open, or 0
    door: int  # 0 is shut
    opened_at: int  # the round in which its door was shut last
    moved_at: int  # the last round in which it moved
    dead: bool  # it doesn't move
    held: bool  # its door doesn't shut
    jammed: bool  # its door doesn't open
    slow: bool  # its door is slow
    sensors: dict[str, bool]  # what those report that are lost or stuck

    def step(self, motor: int, opens: int, now: int):
        """A round under these outputs."""

    def show(self):
        """Makes `fields` anew."""


def reported(truth: CarFields, sensors: dict[str, bool]) -> CarFields:
    if not sensors:
        return truth
    pos, level, top, bottom, locked, opened = truth
    return pos, sensors.get("LEVEL", level), top, bottom, sensors.get("LOCKED", locked), sensors.get("OPENED", opened)


class SimCar:
    """That of the plant of `sim`: docs/TRACE.md."""

    def __init__(self, floors: int):
        self.shaft = Shaft(floors)
        self.place = self.door = self.opened_at = self.moved_at = self.direction = 0
        self.dead = self.held = self.jammed = self.slow = False
        self.sensors: dict[str, bool] = {}
        self.fields, self.landing = (1, True, False, True, True, False), 0
        self.show()

    def show(self):
        floor, (level, top, bottom, locked, opened) = self.shaft.reported(self.place, self.door)
        self.fields = reported((floor, level, top, bottom, locked, opened), self.sensors)
        self.landing = floor if level and opened else 0

    def step(self, motor: int, opens: int, now: int):
        changes = self.moves_door(opens and not motor, now)
        if motor and not self.door and not self.dead:
            place = self.shaft.place_after(self.place, motor)
            if place != self.place:
                self.place, self.moved_at, changes = place, now, True
        if changes:
            self.show()

    def moves_door(self, opens: bool, now: int) -> bool:
        if self.slow and now % SLOWER:
            return False
        if opens:
            if self.door == DOOR_OPEN or self.jammed or self.place % PLACES_OF_FLOOR:
                return False
            if not self.door:
                self.opened_at = now
            self.door += 1
            return True
        if not self.door or self.held:
            return False
        self.door -= 1
        return True


class BuildingCar(Running):
    """That of tools/building, without its people."""

    dead = held = jammed = slow = False

    def __init__(self, number: int, plant: Plant, times: Timetable):
        self.sensors: dict[str, bool] = {}
        self.moved_at = self.landing = 0
        super().__init__(number, plant, times)

    def show(self):
        ends = self.level and self.shown == self.top, self.level and self.shown == 1
        truth = self.shown, self.level, *ends, self.door == 0, self.door == self.wide
        self.fields = reported(truth, self.sensors)
        self.landing = self.shown if self.door == self.wide else 0

    def step(self, motor: int, opens: int, now: int):
        self.motor, self.open = motor, opens
        if self.direction:
            if not self.dead:
                self.moved_at = now
                self.fly()
        elif self.door or opens:
            stays = self.held and not opens or self.jammed and opens or self.slow and now % SLOWER
            if not stays:
                self.move_door(now)
        elif motor and not self.dead and self.set_off():
            self.moved_at = now


HEIGHT, SPEED, ACCELERATION, JERK = 3.6, 1.6, 1.0, 1.5  # m, m/s, m/s², m/s³: those of tools/building
OPENING, CLOSING, TRANSFER, CAPACITY = 20, 30, 10, 13  # rounds, persons


@cache
def building(floors: int) -> tuple[Plant, Timetable]:
    heights = tuple(HEIGHT * at for at in range(floors))
    plant = Plant(heights, Drive(SPEED, ACCELERATION, JERK), OPENING, CLOSING, TRANSFER, CAPACITY)
    return plant, Timetable(plant)


def made_cars(plant: str, cars: int, floors: int) -> list[TorturedCar]:
    if plant == "building":
        return [BuildingCar(number, *building(floors)) for number in range(1, cars + 1)]
    return [SimCar(floors) for _ in range(cars)]


def ride(plant: str, floors: int) -> int:
    """Rounds of the longest ride of one passenger with one car: there, and to the destination, with both stops."""
    if plant == "building":
        shape, _ = building(floors)
        way = ceil(flight(shape.drive, shape.heights[-1]).duration / ROUND)
        return 2 * (way + shape.opening + shape.closing + STAY)
    return 2 * (PLACES_OF_FLOOR * (floors - 1) + 2 * DOOR_OPEN + STAY)
