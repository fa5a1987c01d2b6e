"""What the processes of tools/torture do: run scenarios, and make those that fail smaller."""
from __future__ import annotations

from dataclasses import dataclass, replace
from typing import Iterator

from lib.torture.machine import Maker
from lib.torture.run import Failure, Rules, Run, crowd
from lib.torture.scenario import Scenario, random_scenario
from lib.torture.shrink import Shrinker


@dataclass(frozen=True)
class Task:
    """One FILE and what is asked of it; it goes to each process."""

    binary: str
    file: str
    library: str
    rules: Rules
    seed: int
    kinds: tuple[str, ...]  # of faults
    plants: tuple[str, ...]


@dataclass(frozen=True)
class Result:
    """Of a scenario."""

    number: int
    rounds: int
    presses: int
    scenario: Scenario
    failures: dict[str, Failure]
    tried: frozenset[str]  # the properties that could fail


class Worker:
    def __init__(self, task: Task):
        self.task, self.maker = task, Maker(task.binary, task.file, task.library)

    def scenario(self, number: int) -> Scenario:
        task = self.task
        return random_scenario(task.seed, number, task.rules.sizes, task.kinds, task.plants, crowd(task.rules.sizes))

    def ran(self, scenario: Scenario, rules: Rules | None = None, keeps: bool = False) -> Run:
        machine = self.maker.opened()
        try:
            return Run(scenario, rules or self.task.rules, machine, keeps).play()
        finally:
            machine.close()

    def result(self, number: int) -> Result:
        run = self.ran(self.scenario(number))
        kept = replace(run.scenario, presses=tuple(it for it in run.scenario.presses if it not in set(run.turned_away)))
        return Result(number, run.now, len(run.presses), kept, run.failures, frozenset(run.tried))

    def alone(self, name: str) -> Rules:
        """The rules for this property."""
        return replace(self.task.rules, wanted=frozenset([name]), stops_at=name)

    def fails(self, scenario: Scenario, name: str) -> bool:
        return name in self.ran(scenario, self.alone(name)).failures

    def shrunk(self, scenario: Scenario, name: str, known: list[Scenario]) -> Scenario:
        """A smaller scenario in which this property fails too, perhaps one of those that are known; the same one where
        it doesn't fail without what was turned away.
        """
        for other in known:
            if len(other.events()) < len(scenario.events()) and self.fails(other, name):
                scenario = other
        if not self.fails(scenario, name):
            return scenario
        return scenario if scenario in known else Shrinker(scenario, lambda it: self.fails(it, name)).shrunk()


WORKER: list[Worker] = []  # of this process


def begin(task: Task):
    WORKER[:] = [Worker(task)]


def result(number: int) -> Result:
    return WORKER[0].result(number)


def size(result: Result, name: str) -> tuple[int, int, int]:
    """The scenario with the least of these is made smaller."""
    return len(result.scenario.events()), result.failures[name].at, result.number


def smallest(results: list[Result], names: Iterator[str]) -> dict[str, Result]:
    """For each property that fails in one of them, the smallest scenario."""
    return {
        name: min(of, key=lambda it: size(it, name))
        for name in names
        if (of := [it for it in results if name in it.failures])
    }
