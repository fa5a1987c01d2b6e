"""A run in which one passenger is followed, and nothing is judged but what becomes of them: how tools/explore shows and
checks what it found, by the passengers of tools/torture."""
from __future__ import annotations

from dataclasses import dataclass

from lib.building import Trouble
from lib.torture.machine import Maker
from lib.torture.run import Failure, Rules, Run, shown, who
from lib.torture.scenario import Press, Scenario
from lib.torture.work import Task

SHOWN = 1800  # rounds that a loop is gone through at least
OPEN_SHOWN = 600  # rounds in which a door is seen open


@dataclass(frozen=True)
class Claim:
    """What is said to happen in a scenario. `name` is what is found: `served` and `starves`, a passenger who is never
    at the destination; `aboard` and `destination`, one for whom it takes longest; `slots` and `shuts`, a call slot and
    a door after all passengers.
    """

    name: str
    scenario: Scenario
    watched: Press | None  # of whom it is
    rounds: int  # until it is seen
    takes: int  # rounds, where it takes some


class Follow(Run):
    """A scenario of which a claim is tried. What is seen stands in `failures`, where it is as it is claimed."""

    def __init__(self, claim: Claim, rules: Rules, machine, keeps: bool):
        super().__init__(claim.scenario, rules, machine, keeps)
        self.claim, self.passenger, self.there, self.slot = claim, None, 0, 0
        self.last_shut = [0] * len(self.cars)

    def play(self) -> Follow:
        while self.now < self.claim.rounds:
            self.step()
            self.look()
        if what := self.seen():
            cars = (self.passenger.car,) if self.passenger and self.passenger.car else ()
            slots = (self.slot,) if self.slot else ()
            self.failures[self.claim.name] = Failure(self.claim.name, self.now, what, cars, slots)
        return self

    def look(self):
        watched = self.claim.watched
        if watched and self.now == watched.at:
            call = watched.at, watched.start, watched.goal
            here = [it for it in self.under_way if (it.pressed, it.start, it.goal) == call]
            self.passenger = here[0] if here else None
        if self.passenger and not self.there and self.passenger not in self.under_way:
            self.there = self.now
        if self.passenger and self.passenger.ticket in self.calls:
            self.slot = self.calls[self.passenger.ticket].slot
        for at, car in enumerate(self.cars):
            if not car.door:
                self.last_shut[at] = self.now

    def seen(self) -> str:
        """What is seen at the end; empty where it isn't as claimed."""
        name, takes = self.claim.name, self.claim.takes
        if self.turned_away or (self.claim.watched and not self.passenger):
            return ""
        if name == "slots":
            return f"{len(self.calls)} not free" if self.calls and not self.under_way else ""
        if name == "shuts":
            open_long = [at for at, last in enumerate(self.last_shut, 1) if self.now - last >= OPEN_SHOWN]
            return f"the door of car {open_long[0]} is open" if open_long and not self.under_way else ""
        passenger = self.passenger
        if name in ("served", "starves"):
            others = "though nobody else presses" if name == "served" else "while others go on pressing"
            return "" if self.there else f"{who(passenger)} is never at the destination, {others}"
        if name == "aboard":
            return f"{who(passenger)} is in the car {shown(takes)} later" if passenger.waited == takes else ""
        is_so = self.there and self.there - passenger.pressed == takes
        return f"{who(passenger)} is at the destination {shown(takes)} later" if is_so else ""


class Follower:
    """What lib.torture.found needs to write the files of a claim."""

    def __init__(self, task: Task, claim: Claim):
        self.task, self.claim, self.maker = task, claim, Maker(task.binary, task.file, task.library)

    def alone(self, _: str) -> Rules:
        return self.task.rules

    def ran(self, _: Scenario, rules: Rules, keeps: bool = False) -> Follow:
        machine = self.maker.opened()
        try:
            run = Follow(self.claim, rules, machine, keeps).play()
        finally:
            machine.close()
        if self.claim.name not in run.failures:
            raise Trouble(1, f"the passengers of tools/torture don't show {self.claim.name}: a fault of tools/explore")
        return run
