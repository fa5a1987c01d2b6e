"""Which instructions of a text the scenarios ran: those that `scan` shows in scans that differ from each other.

To look at every scan would take hours. So a scan is looked at where something of it is new: what the car reports, what
it asked for and asks for, what is said of its calls; and where that ends. The looking ends after MOST scans, or after
IN_VAIN of them in a row that ran nothing new. So what is said never to run may have run elsewhere.
"""
from __future__ import annotations

import json, re, subprocess
from collections import defaultdict
from typing import Iterator

from lib.building import Trouble
from lib.torture.machine import Answer, Fields
from lib.torture.scenario import MOST_ROUND

MOST, IN_VAIN = 600, 240
GROUP = 0  # the task
SOON = 3  # rounds after a call entered in which GROUP's scans are looked at
Heard = list[tuple[list[tuple[int, int]], Fields, Answer]]


def said(words: list[str]) -> str:
    done = subprocess.run(words, stdin=subprocess.DEVNULL, stdout=subprocess.PIPE)
    if done.returncode:
        raise Trouble(done.returncode, "")
    return done.stdout.decode("ascii")


def instructions(binary: str, file: str) -> dict[str, list[int]]:
    """By unit, the lines of its instructions that can be reached; the END word's return isn't one."""
    made: dict[str, list[int]] = {}
    for line in said([binary, "ranges", file, "--json"]).splitlines():
        of = json.loads(line)
        if "unit" in of:
            lines = made.setdefault(of["unit"], [])
        else:
            lines.append(of["line"])
    return {unit: sorted(set(lines)) for unit, lines in made.items()}


def tasks(binary: str, file: str) -> list[int]:
    """In the order of a round."""
    names = re.findall(r"^task (CAR\d|GROUP) ", said([binary, "check", file]), re.MULTILINE)
    return sorted(int(name[3:]) for name in names if name != "GROUP") + [GROUP] * ("GROUP" in names)


def round_lines(presses: list[tuple[int, int]], fields: Fields, floors: int, of: list[int]) -> Iterator[str]:
    """Those of docs/TRACE.md, as `serve --trace` writes them."""
    yield from (f"P {start} {goal}" for start, goal in presses)
    yield from (f"G {floor}" for floor in range(1, floors + 1))
    cars = "".join(" %d %d%d%d%d%d" % car for car in fields.cars)
    yield f"R {fields.now} {fields.limit} {fields.fire:d}{cars}"
    for task in of:
        yield f"S {task}"
        yield f"C {task}"


def trace(heard: Heard, floors: int, of: list[int]) -> str:
    lines = [line for presses, fields, _ in heard for line in round_lines(presses, fields, floors, of)]
    return "\n".join(["LIFTTRACE 2", *lines, f"E {len(lines)}", ""])


class Calls:
    """Those that hold a slot, by what was said; and of the last round the cars of which something was said, by kind."""

    def __init__(self):
        self.floors: dict[int, tuple[int, int]] = {}  # by ticket
        self.cars: dict[int, int] = {}
        self.kinds: dict[str, set[int]] = defaultdict(set)

    def hear(self, answer: Answer):
        self.kinds = defaultdict(set)
        for kind, *numbers in answer.notices:
            self.kinds[kind].add(numbers[0] if kind == "denied" else numbers[1])
            if kind == "entered":
                self.floors[numbers[0]] = numbers[2], numbers[3]
            elif kind == "told":
                self.cars[numbers[0]] = numbers[1]
            elif kind == "served":
                del self.floors[numbers[0]], self.cars[numbers[0]]

    def way(self, car: int, pos: int) -> tuple[int, ...]:
        """Where the floors of the car's calls are: below, here, above."""
        return tuple(
            sorted(
                {
                    (floor > pos) - (floor < pos)
                    for ticket, at in self.cars.items()
                    if at == car
                    for floor in self.floors[ticket]
                }
            )
        )


class Coverage:
    """`ran` has the lines that were seen to run."""

    def __init__(self, binary: str, file: str):
        self.binary, self.file, self.tasks = binary, file, tasks(binary, file)
        self.units = instructions(binary, file)
        self.ran: set[int] = set()
        self.known: set[tuple] = set()
        self.looked_at = self.in_vain = 0

    def is_done(self) -> bool:
        return self.looked_at >= MOST or self.in_vain >= IN_VAIN

    def look(self, heard: Heard, floors: int, room: str):
        """At the scans of a run. `room` is a folder for its trace."""
        chosen = [it for it in self.chosen(heard) if it[1] <= MOST_ROUND]
        if not chosen or self.is_done():
            return
        with open(f"{room}/trace", "w", encoding="ascii") as to:
            to.write(trace(heard, floors, self.tasks))
        for task, at in chosen:
            if self.is_done():
                return
            shown = said(
                [self.binary, "scan", self.file, f"{room}/trace", f"CAR{task}" if task else "GROUP", "--round", str(at)]
            )
            lines = set(map(int, re.findall(r"^ *line (\d+):", shown, re.MULTILINE)))
            self.looked_at += 1
            self.in_vain = 0 if lines - self.ran else self.in_vain + 1
            self.ran |= lines

    def chosen(self, heard: Heard) -> Iterator[tuple[int, int]]:
        """The scans that differ from those that were looked at, with their rounds; and of what stays for some rounds
        the last one.
        """
        calls, entered, before, were = Calls(), -SOON, (None, None), {}
        for at, (_, fields, answer) in enumerate(heard, 1):
            calls.hear(answer)
            entered = at if calls.kinds["entered"] else entered
            for task in self.tasks:
                if task == GROUP:
                    of = at - entered if at - entered <= SOON else None, len(calls.kinds["told"])
                else:
                    of = self.of_car(task, fields, answer, calls, before)
                now, was = (task, fields.fire, of), were.get(task)
                if was is not None and was != now:
                    yield from self.new(task, at - 1, ("last", *was))
                yield from self.new(task, at, now)
                were[task] = now
            before = fields, answer

    def new(self, task: int, at: int, what: tuple) -> Iterator[tuple[int, int]]:
        if what not in self.known:
            self.known.add(what)
            yield task, at

    def of_car(
        self, car: int, fields: Fields, answer: Answer, calls: Calls, before: tuple[Fields | None, Answer | None]
    ) -> tuple:
        pos, *flags = fields.cars[car - 1]
        said_of = *(kind for kind in ("denied", "told", "served") if car in calls.kinds[kind]), calls.way(car, pos)
        if before[0] is None:
            return *flags, answer.outputs[car - 1], said_of
        return *flags, pos != before[0].cars[car - 1][0], answer.outputs[car - 1], before[1].outputs[car - 1], said_of

    def missed(self) -> dict[str, list[int]]:
        """By unit, the lines that weren't seen to run."""
        missed = {unit: [line for line in lines if line not in self.ran] for unit, lines in self.units.items()}
        return {unit: lines for unit, lines in missed.items() if lines}

    def count(self) -> int:
        return len({line for lines in self.units.values() for line in lines})


def spans(lines: list[int]) -> str:
    """3-5, 9"""
    made: list[list[int]] = []
    for line in lines:
        if made and line == made[-1][1] + 1:
            made[-1][1] = line
        else:
            made.append([line, line])
    return ", ".join(f"{first}" if first == last else f"{first}-{last}" for first, last in made)
