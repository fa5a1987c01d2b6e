"""A folder of traces: each start of `serve` makes a new one there, and goes on where the last one ends; each K line
makes one too, while the group runs.

A trace without a round is passed over: all that happened is in the one before, and a power cut may have left a piece of
its state. So a round has to come first in each trace, before a press. Where the last one with a round leads nowhere,
none does: an older one has calls that were served long ago.
"""
from __future__ import annotations

import os, subprocess, time
from dataclasses import dataclass, field

from lib.files import NoFile, there

PATTERN = "box-%"
DAY = 86_400  # s
STATE_END = "EVENTS"  # the last line of the state with which a trace begins
LONGEST = 4096  # bytes of a line that are looked at


@dataclass
class Left:
    """Where the group goes on: the trace, or none, and its last NOW. `said` has what a person is told of others."""

    trace: str = ""
    now: int = 0
    said: list[str] = field(default_factory=list)


def pattern(folder: str) -> str:
    return os.path.join(folder, PATTERN)


def traces(folder: str) -> list[str]:
    """Those that are there, the newest first."""
    return [path for _, path in sorted(there(pattern(folder)), reverse=True) if os.path.isfile(path)]


def last_left(folder: str, binary: str, file: str) -> Left:
    """What the last trace leaves."""
    found, said = traces(folder), []
    empty = next((at for at, it in enumerate(found) if has_round(it)), len(found))
    if empty:
        said.append(f"passed over: {' to '.join(dict.fromkeys((found[empty - 1], found[0])))}, without a round")
    if empty == len(found):
        return Left(said=said)
    asked = subprocess.run(
        [binary, "replay", file, found[empty], "--cut"],
        capture_output=True,
        encoding="utf-8",
        errors="backslashreplace",
    )
    if not asked.returncode:
        return Left(found[empty], now_of(asked.stdout), said)
    why = (asked.stderr.strip().splitlines() or [f"status {asked.returncode}"])[0]
    return Left(said=[*said, f"passed over: {found[empty]}, {why}; all call slots are free"])


def now_of(image: str) -> int:
    """By the first line of what `replay` prints."""
    word, _, number = image.partition("\n")[0].partition(" ")
    return int(number) if word == "NOW" and number.isascii() and number.isdigit() else 0


def has_round(trace: str) -> bool:
    """Whether it has a whole R line. One that can't be read counts as such."""
    try:
        with open(trace, encoding="ascii", errors="replace", newline="\n") as file:
            return any(
                line.startswith("R ") and line.endswith("\n") for line in iter(lambda: file.readline(LONGEST), "")
            )
    except OSError:
        return True


def slot_lines(trace: str | bytes) -> list[str]:
    """The SLOT lines of the state with which a trace begins, in the order of the slots: all of them, or none where that state isn't whole."""
    lines = []
    with open(trace, encoding="ascii", errors="replace", newline="\n") as file:
        while (line := file.readline(LONGEST)) and line != f"{STATE_END}\n":
            if line.startswith("SLOT "):
                lines.append(line.rstrip("\n"))
    return lines if line else []


def calls_at_start(trace: str) -> dict[int, tuple[int, int, int]]:
    """Those in the call slots of the state with which a trace begins, by ticket: floor from, floor to, and the car or
    0.
    """
    calls = {}
    for words in map(str.split, slot_lines(trace)):
        if words[2] != "FREE":
            ticket, start, goal, *car = map(int, words[3:])
            calls[ticket] = start, goal, car[0] if car else 0
    return calls


def forget(folder: str, days: float, kept: set[str]):
    """Removes traces that were last written so many days ago, but these. One that can't be removed stays."""
    for trace in traces(folder):
        try:
            if trace not in kept and time.time() - os.path.getmtime(trace) > days * DAY:
                os.remove(trace)
        except OSError:
            pass


def must_be_folder(folder: str):
    try:
        os.makedirs(folder, exist_ok=True)
    except OSError as why:
        raise NoFile(f"cannot make the folder {folder}: {why.strerror}") from why
