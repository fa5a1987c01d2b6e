"""Makes a scenario that fails smaller: fewer events, earlier, shorter, with smaller numbers, on the simpler plant.

Each step is tried, and kept where the property still fails. It ends where no step is left, or after so many tries, so
it depends on the scenario alone. What fails often hangs on the round in which a fault meets a car. Then no event can
go without the others being moved; so small scenarios of the same kinds of events at random rounds are tried too.
"""
from __future__ import annotations

import random
from dataclasses import replace
from typing import Callable, Iterator

from lib.torture.scenario import Fault, Press, Scenario

Event = Press | Fault
TRIES = 200
SMALL_TRIES, SMALL, EARLY = (
    80,
    4,
    150,
)  # small scenarios that are tried, events of such a one, and rounds in which they begin


class Shrinker:
    def __init__(self, scenario: Scenario, fails: Callable[[Scenario], bool], tries: int = TRIES):
        self.best, self.fails, self.left, self.tried = scenario, fails, tries, {scenario}

    def shrunk(self) -> Scenario:
        self.remove()
        self.take(replace(self.best, plant="sim"))
        self.small()
        self.until_same(lambda: self.walk(earlier))
        self.until_same(lambda: [self.walk(simpler), self.walk(earlier)])
        return self.best

    def until_same(self, step: Callable[[], object]):
        """These steps and fewer events, until nothing changes."""
        before = None
        while before != self.best and self.left > 0:
            before = self.best
            step()
            self.remove()

    def take(self, scenario: Scenario) -> bool:
        """Whether it fails too, and is the best one from now on."""
        if scenario in self.tried or self.left <= 0:
            return False
        self.tried.add(scenario)
        self.left -= 1
        if not self.fails(scenario):
            return False
        self.best = scenario
        return True

    def remove(self):
        """Fewer events: first halves, then quarters, and at last each by itself."""
        size = (len(self.best.events()) + 1) // 2
        while size:
            at = 0
            while at < len(self.best.events()) > 1:
                events = self.best.events()
                if not self.take(self.best.with_events(events[:at] + events[at + size :])):
                    at += size
            size //= 2

    def small(self):
        """Random scenarios of few events that are like those of the best one."""
        chance = random.Random(repr(self.best))
        for _ in range(SMALL_TRIES):
            many = len(self.best.events()) - 1
            if many < SMALL:
                return
            faults = chance.sample(self.best.faults, min(len(self.best.faults), chance.randint(1, 2)))
            presses = chance.sample(self.best.presses, min(len(self.best.presses), chance.randint(1, SMALL - 1)))
            moved = [replace(it, at=chance.randint(1, EARLY)) for it in presses]
            longer = [
                replace(it, at=chance.randint(1, 2 * EARLY), rounds=it.rounds * chance.choice((1, 2, 8)))
                for it in faults
            ]
            if len(moved + longer) <= many:
                self.take(self.best.with_events(moved + longer))

    def walk(self, changed: Callable[[list[Event], int], Iterator[list[Event]]]):
        """Each event in turn; where a change is kept, the same one again."""
        at = 0
        while at < len(self.best.events()) and self.left > 0:
            events = in_order(self.best)
            if not any(self.take(self.best.with_events(it)) for it in changed(events, at)):
                at += 1


def in_order(scenario: Scenario) -> list[Event]:
    """Its events by round; of one round first the presses."""
    return sorted(scenario.events(), key=lambda it: it.at)


def earlier(events: list[Event], at: int) -> Iterator[list[Event]]:
    """This event and all later ones, by the gap before it, half of it, and a round; then this one alone."""
    first = events[at - 1].at if at else 1
    gap = events[at].at - first
    for by in dict.fromkeys((gap, gap // 2, gap // 8, 1)):
        if 0 < by <= gap:
            yield events[:at] + [replace(it, at=it.at - by) for it in events[at:]]
            yield [*events[:at], replace(events[at], at=events[at].at - by), *events[at + 1 :]]


def simpler(events: list[Event], at: int) -> Iterator[list[Event]]:
    """This event with smaller numbers."""
    event = events[at]
    for it in simpler_press(event) if isinstance(event, Press) else simpler_fault(event):
        yield [*events[:at], it, *events[at + 1 :]]


def simpler_press(press: Press) -> Iterator[Press]:
    for start in (1, press.start - 1):
        if 0 < start < press.start and start != press.goal:
            yield replace(press, start=start)
    for goal in (1, 2, press.goal - 1):
        if 0 < goal < press.goal and goal != press.start:
            yield replace(press, goal=goal)


def simpler_fault(fault: Fault) -> Iterator[Fault]:
    for rounds in (10, fault.rounds // 2, fault.rounds // 10 * 10, fault.rounds - fault.rounds // 8):
        if 0 < rounds < fault.rounds:
            yield replace(fault, rounds=rounds)
    if fault.car > 1:
        yield replace(fault, car=1)
    if fault.kind == "NOW":
        for value in (0, 10 ** (len(str(fault.value)) - 1), fault.value // 10):
            if value < fault.value:
                yield replace(fault, value=value)
