"""What happens to a group: presses, and what fails in the field and when. Its text, and random ones.

A scenario's text has a line for each event, by rounds. Where it has presses, FIRE and LIMIT alone, on the plant of
`sim`, it is a file for `sim --calls` (docs/COMMANDS.md). docs/TORTURE.md has all lines.
"""
from __future__ import annotations

import random, re
from dataclasses import dataclass, replace
from typing import Iterator

from lib.building import Trouble
from lib.sizes import Sizes

PLANTS = "sim", "building"
DOOR_OR_DRIVE = "DEAD", "HELD", "JAMMED", "SLOW"  # of a car: how long; DEAD without it is for good
SENSORS = "LEVEL", "LOCKED", "OPENED"  # of a car: off or on, and how long
MOST_ROUND = 50_000  # of `sim`
MOST_NOW = 2_147_483_647
FOR_GOOD = 0  # rounds of a DEAD without an end


@dataclass(frozen=True, order=True)
class Press:
    at: int  # round
    start: int
    goal: int


@dataclass(frozen=True, order=True)
class Fault:
    at: int  # the first round
    kind: str
    car: int  # 0 where it is of no car
    value: int  # of a sensor, of LIMIT, of NOW
    rounds: int  # so many rounds it holds; NOW is set once

    def last(self) -> int:
        return self.at + max(self.rounds, 1) - 1

    def is_for_good(self) -> bool:
        return self.kind == "DEAD" and self.rounds == FOR_GOOD


@dataclass(frozen=True)
class Scenario:
    plant: str
    presses: tuple[Press, ...]  # by round
    faults: tuple[Fault, ...]

    def events(self) -> list[Press | Fault]:
        return [*self.presses, *self.faults]

    def with_events(self, events: list[Press | Fault]) -> Scenario:
        presses = tuple(sorted(it for it in events if isinstance(it, Press)))
        return replace(self, presses=presses, faults=tuple(sorted(it for it in events if isinstance(it, Fault))))

    def last(self) -> int:
        """The round of the last event, of the last one of a fault that ends."""
        return max([0, *(it.at for it in self.presses), *(it.last() for it in self.faults)])

    def is_for_sim(self) -> bool:
        return (
            self.plant == "sim"
            and all(it.kind in ("FIRE", "LIMIT") for it in self.faults)
            and self.last() <= MOST_ROUND
        )


def settings(faults: list[Fault], kind: str, usual: int) -> list[tuple[int, int]]:
    """The rounds in which FIRE or RUNLIMIT changes, with what it is from there on."""
    of = [it for it in faults if it.kind == kind]
    worst = max if kind == "FIRE" else min
    made, now = [], usual
    for at in sorted({it.at for it in of} | {it.last() + 1 for it in of}):
        then = worst([usual, *(it.value for it in of if it.at <= at <= it.last())])
        if then != now:
            made.append((at, then))
        now = then
    return made


def fault_line(fault: Fault) -> str:
    if fault.kind == "NOW":
        return f"NOW {fault.value}"
    value = f" {'on' if fault.value else 'off'}" if fault.kind in SENSORS else ""
    return f"CAR {fault.car} {fault.kind}{value}{'' if fault.is_for_good() else f' {fault.rounds}'}"


def lines(scenario: Scenario, cars: int) -> list[str]:
    """The scenario's text."""
    of = [(it.at, f"{it.start} {it.goal}") for it in scenario.presses]
    of += [(it.at, fault_line(it)) for it in scenario.faults if it.kind not in ("FIRE", "LIMIT")]
    of += [(at, f"FIRE {'on' if value else 'off'}") for at, value in settings(list(scenario.faults), "FIRE", 0)]
    of += [(at, f"LIMIT {value}") for at, value in settings(list(scenario.faults), "LIMIT", cars)]
    plant = [] if scenario.plant == "sim" else [f"PLANT {scenario.plant}"]
    return plant + [f"{at} {what}" for at, what in sorted(of, key=lambda it: it[0])]


def read(text: str, sizes: Sizes) -> Scenario:
    """The scenario of a text; a Trouble names the first wrong line."""
    plant, events, changes = "sim", [], {"FIRE": [], "LIMIT": []}
    for number, line in enumerate(text.split("\n"), 1):
        words = line.split()
        if not words or words[0].startswith("#"):
            continue
        if words[0] == "PLANT" and len(words) == 2 and words[1] in PLANTS:
            plant = words[1]
            continue
        try:
            at, what = whole(words[0], 1, MOST_NOW // 100), words[1:]
            if what[0] in changes and len(what) == 2:
                most = {"on": 1, "off": 0}[what[1]] if what[0] == "FIRE" else whole(what[1], 0, sizes.cars)
                changes[what[0]].append((at, most))
            else:
                events.append(event_of(at, what, sizes))
        except (IndexError, KeyError, ValueError) as why:
            raise Trouble(2, f"line {number} of the scenario is wrong: {line[:60]!r}") from why
    events += held(changes["FIRE"], "FIRE", 0) + held(changes["LIMIT"], "LIMIT", sizes.cars)
    return Scenario(plant, (), ()).with_events(events)


def whole(word: str, least: int, most: int) -> int:
    if not re.fullmatch("[0-9]{1,10}", word) or not least <= int(word) <= most:
        raise ValueError(word)
    return int(word)


def event_of(at: int, what: list[str], sizes: Sizes) -> Press | Fault:
    if what[0] == "NOW" and len(what) == 2:
        return Fault(at, "NOW", 0, whole(what[1], 0, MOST_NOW), 0)
    if what[0] != "CAR":
        start, goal = (whole(word, 1, sizes.floors) for word in what)
        if start == goal:
            raise ValueError(start)
        return Press(at, start, goal)
    car, kind, rest = whole(what[1], 1, sizes.cars), what[2], what[3:]
    if kind in SENSORS and len(rest) == 2:
        return Fault(at, kind, car, {"on": 1, "off": 0}[rest[0]], whole(rest[1], 1, MOST_NOW))
    if kind == "DEAD" and not rest:
        return Fault(at, kind, car, 0, FOR_GOOD)
    if kind not in DOOR_OR_DRIVE or len(rest) != 1:
        raise ValueError(kind)
    return Fault(at, kind, car, 0, whole(rest[0], 1, MOST_NOW))


def held(changes: list[tuple[int, int]], kind: str, usual: int) -> list[Fault]:
    """The faults of a setting that changes."""
    changes = sorted(changes, key=lambda it: it[0])
    if changes and changes[-1][1] != usual:
        raise Trouble(2, f"the scenario sets {kind}, and doesn't set it back")
    return [
        Fault(at, kind, 0, value, then - at)
        for (at, value), (then, _) in zip(changes, changes[1:])
        if value != usual and then > at
    ]


STYLES = "few", "mixed", "burst", "one floor", "same call", "everybody", "ends"
LONGEST_FAULT, LONGEST_TRAFFIC = 1500, 3000  # rounds
GROWS = 24  # scenarios from the smallest to the largest


def random_scenario(
    seed: int, number: int, sizes: Sizes, kinds: tuple[str, ...], plants: tuple[str, ...], crowd: int
) -> Scenario:
    """Of a seed, the one of this number: they grow from a few events to many, again and again. `kinds` are the faults
    that may come.
    """
    chance = random.Random(f"{seed}/{number}")
    size = (number % GROWS + 1) / GROWS
    presses = sorted(set(random_presses(chance, size, sizes, crowd)))
    faults = []
    if kinds and chance.random() < 0.55:
        span = max([it.at for it in presses]) + 200
        faults = random_faults(chance, size, sizes, kinds, span)
    return Scenario(chance.choice(plants), tuple(presses), tuple(sorted(faults)))


def random_presses(chance: random.Random, size: float, sizes: Sizes, crowd: int) -> Iterator[Press]:
    style = chance.choice(STYLES)
    span = max(1, int(LONGEST_TRAFFIC * size * chance.random()))
    many = 1 + int(3 * crowd * size * chance.random())
    floors = range(1, sizes.floors + 1)
    if style == "few":
        many = min(many, chance.randint(1, 3))
    if style == "everybody":
        at = chance.randint(1, span)
        pairs = [(start, goal) for start in floors for goal in floors if start != goal]
        yield from (Press(at, *pair) for pair in chance.sample(pairs, min(crowd, len(pairs))))
        return
    alone, ends, share, begin = chance.choice(floors), (1, sizes.floors), chance.random(), chance.randint(1, span)
    for _ in range(many):
        start, goal = ends if style == "ends" else chance.sample(floors, 2)
        if style in ("one floor", "same call"):
            start = alone
            goal = goal if goal != alone else alone % sizes.floors + 1
        if style == "same call":
            goal = alone % sizes.floors + 1
        if style == "mixed" and goal != 1 and start != 1 and chance.random() < 0.6:
            start = 1
        if chance.random() < share and style != "same call":
            start, goal = goal, start
        yield Press(begin + chance.randint(0, 20) if style == "burst" else chance.randint(1, span), start, goal)


def random_faults(chance: random.Random, size: float, sizes: Sizes, kinds: tuple[str, ...], span: int) -> list[Fault]:
    if "DEAD" in kinds and sizes.cars > 1 and chance.random() < 0.35:
        return [Fault(chance.randint(1, span), "DEAD", chance.randint(1, sizes.cars), 0, FOR_GOOD)]
    return [random_fault(chance, sizes, kinds, span) for _ in range(1 + int(4 * size * chance.random()))]


def random_fault(chance: random.Random, sizes: Sizes, kinds: tuple[str, ...], span: int) -> Fault:
    kind, at, rounds = chance.choice(kinds), chance.randint(1, span), chance.randint(10, LONGEST_FAULT)
    if kind == "NOW":
        return Fault(
            at, kind, 0, chance.choice((0, chance.randrange(MOST_NOW), MOST_NOW - chance.randrange(100 * span))), 0
        )
    if kind == "FIRE":
        return Fault(at, kind, 0, 1, rounds)
    if kind == "LIMIT":
        return Fault(at, kind, 0, chance.randrange(sizes.cars), rounds)
    return Fault(at, kind, chance.randint(1, sizes.cars), chance.randrange(2) if kind in SENSORS else 0, rounds)


KINDS = *DOOR_OR_DRIVE, *SENSORS, "FIRE", "LIMIT", "NOW"
