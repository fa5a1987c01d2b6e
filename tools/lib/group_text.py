"""The text of a group in Structured Text, of the templates in tools/lib/group, for tools/group.

A template is Structured Text with lines of its own between it, each a comment:

    // WITH parking      the lines from here on are there if the group has this part
    // ELSE              and these if it hasn't
    // EACH car          these are there once for each car, with its number for {car}
    // USE watch         another template
    // END

{NAME} stands for a value of the group. Sizes and settings are constants of the configuration, in group.st. So only that
file, the heading and lines for each car have any.
"""
import os, re
from dataclasses import asdict, dataclass
from typing import Iterator

TEMPLATES = os.path.join(os.path.dirname(os.path.abspath(__file__)), "group")
DISPATCHERS = {
    "nearest": "NEAREST_CAR",
    "turn": "IN_TURN",
    "same": "SAME_DESTINATION",
    "estimated": "ESTIMATED",
    "etd": "TIME_TO_DESTINATION",
}  # with the names of their programs
MEASURING = "estimated", "etd"  # those that measure the times of the cars
SECOND = 1000  # ms
SCAN = 100  # ms, in which times are measured
LEAST_HOLD, MOST_HOLD = 20 * SECOND, 600 * SECOND
STOPPING = 4 * SECOND  # from the begin of the braking to a door that lets somebody through
MOST_PASSING = 60 * SECOND  # car.st cuts the time of those who pass the door to a minute
PARK_AT_ONCE = SECOND  # in an up-peak
STOP_MORE_THAN_DWELL = 30  # scans that a stop is taken to last before it is measured


@dataclass(frozen=True)
class Group:
    """What is asked for: the sizes, the dispatcher, and the settings of the programs; times in milliseconds."""

    cars: int
    floors: int
    slots: int
    dispatch: str = "etd"
    capacity: int = 8
    dwell: int = 3 * SECOND
    transfer: int = SECOND
    hold: int | None = None  # None: by the capacity
    park: int = 15 * SECOND
    out: int = 30 * SECOND
    dwell_out: int | None = None  # None: the dwell

    def parts(self) -> set[str]:
        """Those that not every group has. In an up-peak GROUP calls idle cars back to floor 1."""
        parks, measures = self.park > 0, self.dispatch in MEASURING
        there = {
            "parking": parks, self.dispatch: True, "measured": measures, "up_peak": parks and measures,
            "main_floor": (parks and measures) or self.dispatch == "etd",
            "dwell_out": self.dwell_out_time() != self.dwell,
        }  # fmt: skip
        return {name for name, is_there in there.items() if is_there}

    def hold_time(self) -> int:
        """If none is given: a stop in which a full car is emptied and filled, and 4 s for the door."""
        usual = min(MOST_HOLD, max(LEAST_HOLD, 2 * self.capacity * self.transfer + STOPPING))
        return usual if self.hold is None else self.hold

    def dwell_out_time(self) -> int:
        return self.dwell if self.dwell_out is None else self.dwell_out

    def longest_stop(self) -> int:
        """Of a car that has work elsewhere, but for its door's ways."""
        return max(
            self.hold_time() + max(self.dwell, self.dwell_out_time()),
            min(MOST_PASSING + self.transfer, 2 * self.capacity * self.transfer),
        )

    def values(self) -> dict[str, str]:
        times = {name: getattr(self, name) for name in ("dwell", "transfer", "park", "out")} | {
            "hold": self.hold_time(),
            "dwell_out": self.dwell_out_time(),
            "park_in_up_peak": min(PARK_AT_ONCE, self.park),
            "stand": self.longest_stop() + self.out,
            "rest": self.longest_stop() + 2 * self.out,
        }
        numbers = {name: value for name, value in asdict(self).items() if name not in times} | {
            "last": self.cars + 1,
            "program": DISPATCHERS[self.dispatch],
            "first_stop_time": self.dwell // SCAN + STOP_MORE_THAN_DWELL,
            "cars_in_words": counted(self.cars, "car"),
            "slots_in_words": counted(self.slots, "call slot"),
        }
        return {name: str(value) for name, value in numbers.items()} | {
            name: duration(value) for name, value in times.items()
        }


def counted(number: int, one: str) -> str:
    return f"{number} {one}" if number == 1 else f"{number} {one}s"


def duration(milliseconds: int) -> str:
    """A duration literal, such as T#3s or T#2s500ms."""
    seconds, rest = divmod(milliseconds, SECOND)
    return "T#" + (f"{seconds}s" if seconds or not rest else "") + (f"{rest}ms" if rest else "")


def chosen(lines: Iterator[str], parts: set[str], cars: int) -> tuple[list[str], str]:
    """The lines that are there, up to an ELSE or END of this depth, and which of the two it was."""
    made: list[str] = []
    for line in lines:
        match line.strip().removeprefix("// ").split() if line.strip().startswith("// ") else []:
            case ["WITH", part]:
                there, end = chosen(lines, parts, cars)
                other = chosen(lines, parts, cars)[0] if end == "ELSE" else []
                made += there if part in parts else other
            case ["EACH", "car"]:
                each, _ = chosen(lines, parts, cars)
                made += [it.replace("{car}", str(car)) for car in range(1, cars + 1) for it in each]
            case ["USE", name]:
                made += chosen(template(name), parts, cars)[0]
            case [("ELSE" | "END") as word]:
                return made, word
            case _:
                made.append(line)
    return made, ""


def template(name: str) -> Iterator[str]:
    with open(f"{TEMPLATES}/{name}.st", encoding="ascii") as file:
        return iter(file.read().removesuffix("\n").split("\n"))


def filled(name: str, group: Group, values: dict[str, str]) -> str:
    """A template with the parts and the values of a group."""
    lines, _ = chosen(template(name), group.parts(), group.cars)
    return re.sub(r"\{(\w+)\}", lambda it: values[it[1]], "".join(f"{line}\n" for line in lines))


def st_of(group: Group, words: str) -> str:
    """The whole text in Structured Text; `words` are those of tools/group that make it."""
    values = group.values() | {"words": words}
    return "".join(filled(name, group, values) for name in ("heading", "car", group.dispatch, "group"))


def il_of(text: str) -> str:
    """The text in Instruction List of one in Structured Text, as `tools/st` prints it. It needs Debian's
    python3-lark.
    """
    from lib.st_read import tree_of
    from lib.st_text import made

    return "".join(f"{line.text}\n" for line in made(tree_of(text)))
