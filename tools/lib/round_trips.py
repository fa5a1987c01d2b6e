"""Round trips of cars from the main floor in a pure up-peak, and what the field's formula says of them.

The formula is the usual one, as CIBSE Guide D gives it. With N floors above the main floor, all with the same
population, and P persons in a car:

    S = N (1 - (1 - 1/N)^P)           stops above the main floor
    H = N - sum of (i/N)^P, i < N     the highest of them, in floors above the main floor
    RTT = 2 H tv + (S + 1) ts + 2 P tp

tv is the time for a floor at rated speed, ts that of a stop (a flight of one floor and both ways of the door, less tv),
and tp the transfer time of a person. A door that stays open after the last passenger is not in it. Here it does, for
the dwell time from the moment when it is wholly open: each stop at which k persons get out lasts longer by what the
dwell exceeds k tp.
"""
from dataclasses import dataclass
from math import comb
from statistics import mean
from typing import Callable

from lib.building import ROUND, Building, Car, Plant
from lib.kinematics import flight


@dataclass(frozen=True)
class Trip:
    """Of a car from its departure at floor 1 to the next one."""

    load: int  # persons
    stops: int  # above floor 1
    highest: int  # floors above floor 1
    duration: float  # s


@dataclass(frozen=True)
class Means:
    load: float
    stops: float
    highest: float
    duration: float
    with_dwell: float


class Watched(Building):
    """A building that keeps from where, when and with how many persons each car set off."""

    def __init__(self, *words):
        super().__init__(*words)
        self.starts: list[list[tuple[int, int, int]]] = [[] for _ in self.cars]

    def leave(self, car: Car):
        self.starts[car.number - 1].append((self.now, car.start, car.load))
        super().leave(car)

    def trips(self, first: int, last: int) -> list[Trip]:
        """Those that began and ended in these rounds."""
        return [trip for starts in self.starts for trip in trips_of([it for it in starts if first <= it[0] <= last])]


def trips_of(starts: list[tuple[int, int, int]]) -> list[Trip]:
    made = []
    departures = [at for at, (_, floor, load) in enumerate(starts) if floor == 1 and load]
    for begin, end in zip(departures, departures[1:]):
        floors = [floor for _, floor, _ in starts[begin + 1 : end] if floor > 1]
        if floors:
            made.append(
                Trip(starts[begin][2], len(floors), max(floors) - 1, (starts[end][0] - starts[begin][0]) * ROUND)
            )
    return made


def measured(trips: list[Trip]) -> Means:
    duration = mean(it.duration for it in trips)
    return Means(
        mean(it.load for it in trips),
        mean(it.stops for it in trips),
        mean(it.highest for it in trips),
        duration,
        duration,
    )


def stops_of(floors: int, load: int) -> float:
    return floors * (1 - (1 - 1 / floors) ** load)


def highest_of(floors: int, load: int) -> float:
    return floors - sum((at / floors) ** load for at in range(1, floors))


def dwell_of(floors: int, load: int, longer: Callable[[int], float]) -> float:
    """What `longer` says of the number of persons at a stop, of all stops above the main floor together."""
    share = 1 / floors
    return floors * sum(comb(load, k) * share**k * (1 - share) ** (load - k) * longer(k) for k in range(1, load + 1))


def calculated(plant: Plant, trips: list[Trip], dwell: float) -> Means:
    """What the formula says, as a mean over the loads of these trips."""
    floors, height = len(plant.heights) - 1, plant.heights[1] - plant.heights[0]
    transfer, per_floor = plant.transfer * ROUND, height / plant.drive.speed
    stop = flight(plant.drive, height).duration + (plant.opening + plant.closing) * ROUND - per_floor
    loads = [it.load for it in trips]
    plain = [
        2 * highest_of(floors, it) * per_floor + (stops_of(floors, it) + 1) * stop + 2 * it * transfer for it in loads
    ]
    longer = [dwell_of(floors, it, lambda k: max(0.0, dwell - k * transfer)) for it in loads]
    stops, highest = mean(stops_of(floors, it) for it in loads), mean(highest_of(floors, it) for it in loads)
    return Means(mean(loads), stops, highest, mean(plain), mean(plain) + mean(longer))
