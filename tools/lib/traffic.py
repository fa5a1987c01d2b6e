"""Passengers of a building: when they come, where from and where to.

Floor 1 is the main floor, where people come in and go out. A passenger is incoming (from floor 1 to another), outgoing
(to floor 1) or inter-floor (neither). The demand is the number of passengers in five minutes, as a percentage of the
population. They come one by one as a Poisson process.
"""
import random
from dataclasses import dataclass
from itertools import accumulate

FIVE_MINUTES = 300.0  # s


@dataclass(frozen=True)
class Mix:
    """Shares of the passengers; they are weights, so they need not add up to 100."""

    incoming: float
    outgoing: float
    inter_floor: float


@dataclass(frozen=True)
class Template:
    mix: Mix
    demand: float  # % of the population in five minutes, where none is asked for


@dataclass(frozen=True)
class Arrival:
    time: float  # s
    start: int  # floor
    goal: int  # floor


# docs/BUILDING.md says where these numbers come from.
TEMPLATES = {
    "up-peak": Template(Mix(100, 0, 0), 12.0),
    "down-peak": Template(Mix(0, 100, 0), 12.0),
    "lunch": Template(Mix(40, 40, 20), 11.0),
    "inter-floor": Template(Mix(0, 0, 100), 5.0),
}


def can_move(mix: Mix, population: list[int]) -> bool:
    """Whether the building has people for each kind of passenger of the mix."""
    floors_with_people = sum(people > 0 for people in population[1:])
    return floors_with_people >= (2 if mix.inter_floor else 1)


def arrivals(mix: Mix, population: list[int], demand: float, seconds: float, seed: int) -> list[Arrival]:
    """All passengers of so many seconds, by time. They depend on these words alone, so that two dispatchers get the
    same ones.
    """
    chance = random.Random(seed)
    rate = demand / 100 * sum(population) / FIVE_MINUTES  # passengers a second
    floors, weights = range(2, len(population) + 1), list(accumulate(population[1:]))
    kinds = list(accumulate((mix.incoming, mix.outgoing, mix.inter_floor)))
    made, time = [], chance.expovariate(rate)
    while time < seconds:
        kind = chance.choices(("incoming", "outgoing", "inter-floor"), cum_weights=kinds)[0]
        start = goal = chance.choices(floors, cum_weights=weights)[0]
        if kind == "incoming":
            start = 1
        elif kind == "outgoing":
            goal = 1
        while start == goal:
            goal = chance.choices(floors, cum_weights=weights)[0]
        made.append(Arrival(time, start, goal))
        time += chance.expovariate(rate)
    return made
