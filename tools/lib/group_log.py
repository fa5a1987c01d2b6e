"""What a log of tools/tee-serve says of a group: its state at the log's end, and counts from the log's beginning on.
For tools/monitor.

docs/MONITOR.md has the records of the log, and the names under which both are given out.
"""
import json
from collections import Counter, deque
from dataclasses import dataclass, field

from lib.sizes import Sizes

DAY_MS = 86_400_000
MOST_DIGITS = 16  # of a number in a line; a line with a longer one is damaged
MOST_QUEUED = 1024  # presses without a call slot; a group has at most two of each pair of floors
RULES = 6
FLAGS = "level", "top", "bottom", "locked", "opened"


class Damaged(Exception):
    """A line that is no record of this group."""


def number(word: bytes, least: int, most: int) -> int:
    digits = word[1:] if least < 0 and word.startswith(b"-") else word
    if not (digits.isdigit() and len(word) <= MOST_DIGITS and least <= int(word) <= most):
        raise Damaged
    return int(word)


def numbers(words: list[bytes], *ranges: tuple[int, int]) -> list[int]:
    if len(words) != len(ranges):
        raise Damaged
    return [number(word, *of) for word, of in zip(words, ranges)]


ANY = 0, 10**MOST_DIGITS
BYTE = 0, 255
UNSIGNED = 0, 0xFFFFFFFF


@dataclass
class Car:
    floor: int = 1
    flags: str = "10110"  # LEVEL, TOP, BOTTOM, LOCKED, OPENED, as a group opens
    motor: int = 0
    open: int = 0

    def flag(self, name: str) -> bool:
        return self.flags[FLAGS.index(name)] == "1"

    def stands_open_at(self, floor: int) -> bool:
        return self.floor == floor and self.flag("level") and self.flag("opened")


@dataclass
class Call:
    ticket: int
    slot: int
    start: int
    end: int
    pressed: int  # ms of the log's time
    pressed_at: int  # ms of the wall clock
    car: int = 0  # 0: none is told yet
    is_aboard: bool | None = False  # None: it isn't known, of a call from before the log
    is_from_before: bool = False  # it was pressed before the log began


@dataclass
class Counts:
    """Since the beginning of the log."""

    lines: int = 0
    damaged: int = 0
    missing: int = 0
    runs: int = 0
    ends: int = 0
    rounds: int = 0
    entered: int = 0
    served: int = 0
    boarded: int = 0
    waited: int = 0  # ms, of those who boarded
    presses: Counter = field(default_factory=Counter)  # by the answer
    denials: Counter = field(default_factory=Counter)  # by car and rule


class GroupLog:
    """Takes the lines of a log, one after another. Its size is bounded, whatever the lines are."""

    def __init__(self, sizes: Sizes):
        self.sizes, self.counts = sizes, Counts()
        self.wall = self.shift = self.suspect = 0  # ms; `wall + shift` never goes back
        self.begin()

    def begin(self):
        """A run begins."""
        self.cars = [Car() for _ in range(self.sizes.cars)]
        self.calls: dict[int, Call] = {}  # by slot
        self.queued: deque[tuple[int, int, int, int]] = deque(
            maxlen=MOST_QUEUED
        )  # from, to, and when: log's time, wall clock
        self.now, self.limit, self.fire = 0, self.sizes.cars, 0
        self.refreshed_at: int | None = None  # ms of the wall clock
        self.asked = 0  # R lines without an answer; they may be sent ahead
        self.is_unsure = False  # a line was damaged or is missing since the last R line
        self.goes_on = self.knows_calls = False  # from a trace; and its call slots are in the log
        self.reply: int | None = None  # ms from the last R line to its outputs
        self.status: int | None = None

    def take(self, line: bytes):
        self.counts.lines += 1
        before = self.wall, self.shift
        try:
            self.take_record(line.split(b" "))
        except Damaged:
            self.wall, self.shift = before
            self.count_damaged()

    def take_long(self):
        """A line that is longer than any record."""
        self.counts.lines += 1
        self.count_damaged()

    def count_damaged(self):
        self.counts.damaged += 1
        self.is_unsure = True

    def take_record(self, words: list[bytes]):
        if words[0] == b"LIFTLOG":
            numbers(words[1:], (1, 1))
            self.begin()
            self.counts.runs += 1
            return
        if len(words) < 3:
            raise Damaged
        self.go_to(number(words[0], *ANY))
        takers = {
            b">": self.take_input,
            b"<": self.take_output,
            b"=": self.take_state,
            b"!": self.take_end,
            b"?": self.take_gap,
        }
        if words[1] not in takers:
            raise Damaged
        takers[words[1]](words[2], words[3:])

    def go_to(self, wall: int):
        """A time that is a day ahead is damage, unless the next line agrees."""
        if self.wall and wall >= self.wall + DAY_MS and abs(wall - self.suspect) >= DAY_MS:
            self.suspect = wall
            raise Damaged
        self.shift += max(0, self.wall - wall)
        self.wall = wall

    def time(self) -> int:
        return self.wall + self.shift

    def take_end(self, word: bytes, rest: list[bytes]):
        (self.status,) = numbers([word, *rest], (-255, 255))
        self.counts.ends += 1

    def take_gap(self, word: bytes, rest: list[bytes]):
        self.counts.missing += numbers([word, *rest], (1, ANY[1]))[0]
        self.is_unsure = True

    def take_state(self, word: bytes, rest: list[bytes]):
        """That the run goes on, or a call slot as it is then."""
        if [word, *rest] == [b"GOES", b"ON"]:
            self.goes_on = True
        elif word == b"SLOT" and len(rest) >= 2:
            self.take_slot(number(rest[0], 1, self.sizes.slots), rest[1], rest[2:])
        else:
            raise Damaged

    def take_slot(self, slot: int, state: bytes, words: list[bytes]):
        tickets, floors, cars = (1, ANY[1]), (1, self.sizes.floors), (1, self.sizes.cars)
        ranges = {b"FREE": [], b"WAITING": [tickets, floors, floors], b"TOLD": [tickets, floors, floors, cars]}
        if state not in ranges:
            raise Damaged
        given = numbers(words, *ranges[state])
        self.calls.pop(slot, None)
        if given:
            ticket, start, end, *car = given
            is_aboard = None if car else False
            self.calls[slot] = Call(ticket, slot, start, end, self.time(), self.wall, *(car or [0]), is_aboard, True)
        self.knows_calls = True

    def take_input(self, word: bytes, rest: list[bytes]):
        if word == b"R":
            self.take_refresh(rest)
        elif word == b"P":
            numbers(rest, BYTE, BYTE)  # the answer says what became of it
        elif word != b"K" and (word != b"E" or rest):  # K has the name of another trace, whatever it is
            raise Damaged

    def take_refresh(self, words: list[bytes]):
        now, limit, fire = numbers(words[:3], UNSIGNED, BYTE, (0, 1))
        places, flags = numbers(words[3::2], *[BYTE] * self.sizes.cars), words[4::2]
        if len(flags) != self.sizes.cars or any(len(it) != len(FLAGS) or it.strip(b"01") for it in flags):
            raise Damaged
        self.now, self.limit, self.fire = now, limit, fire
        for car, floor, bits in zip(self.cars, places, flags):
            car.floor, car.flags = floor, bits.decode("ascii")
        self.refreshed_at, self.reply = self.wall, None
        self.asked, self.is_unsure = 1 if self.is_unsure else self.asked + 1, False
        for call in self.calls.values():
            if call.car and not call.is_aboard and self.cars[call.car - 1].stands_open_at(call.start):
                call.is_aboard = True
                if not call.is_from_before:  # nobody knows since when that one waited
                    self.counts.boarded += 1
                    self.counts.waited += self.time() - call.pressed

    def take_output(self, word: bytes, rest: list[bytes]):
        takers = {
            b"outputs": self.take_outputs,
            b"denied": self.take_denied,
            b"press": self.take_press,
            b"entered": self.take_entered,
            b"told": self.take_told,
            b"served": self.take_served,
            b"kept": lambda _: None,
        }
        if word not in takers:
            raise Damaged
        takers[word](rest)

    def take_outputs(self, words: list[bytes]):
        given = numbers(words, *[(-1, 1), (0, 1)] * self.sizes.cars)
        for car, motor, is_open in zip(self.cars, given[::2], given[1::2]):
            car.motor, car.open = motor, is_open
        if self.asked:  # none is, where this is the stop
            self.asked -= 1
            self.counts.rounds += 1
            if not self.asked:
                self.reply = max(0, self.wall - self.refreshed_at)

    def take_denied(self, words: list[bytes]):
        car, rule = numbers(words, (1, self.sizes.cars), (1, RULES))
        self.counts.denials[car, rule] += 1

    def take_press(self, words: list[bytes]):
        start, end = numbers(words[:2], BYTE, BYTE)
        answer, *rest = words[2:] or [b""]
        if answer == b"refused":
            numbers(rest, (64, 65))
        elif answer not in (b"new", b"already") or rest:
            raise Damaged
        if answer == b"new":
            self.queued.append((start, end, self.time(), self.wall))
        self.counts.presses[answer.decode("ascii")] += 1

    def take_entered(self, words: list[bytes]):
        floors = 1, self.sizes.floors
        ticket, slot, start, end = numbers(words, (1, ANY[1]), (1, self.sizes.slots), floors, floors)
        press = next((it for it in self.queued if it[:2] == (start, end)), (start, end, self.time(), self.wall))
        if press in self.queued:
            self.queued.remove(press)
        self.calls[slot] = Call(ticket, slot, *press)
        self.counts.entered += 1

    def take_told(self, words: list[bytes]):
        ticket, car = numbers(words, (1, ANY[1]), (1, self.sizes.cars))
        for call in self.calls.values():
            if call.ticket == ticket:
                call.car = car

    def take_served(self, words: list[bytes]):
        ticket, _ = numbers(words, (1, ANY[1]), (1, self.sizes.cars))
        self.calls = {slot: call for slot, call in self.calls.items() if call.ticket != ticket}
        self.counts.served += 1


@dataclass(frozen=True)
class Asked:
    """What is known beside the log, as somebody asks."""

    configuration: str
    path: str
    size: int  # bytes of the log
    now: int  # ms of the wall clock
    watchdog: int  # ms


def is_late(group: GroupLog, asked: Asked) -> bool:
    """Whether no round comes."""
    return group.status is not None or group.refreshed_at is None or asked.now - group.refreshed_at > asked.watchdog


def as_json(group: GroupLog, asked: Asked) -> str:
    counts = group.counts
    cars = [
        {
            "car": k,
            "floor": it.floor,
            **{name: it.flag(name) for name in FLAGS},
            "motor": it.motor,
            "open": bool(it.open),
        }
        for k, it in enumerate(group.cars, 1)
    ]
    calls = [
        {
            "ticket": it.ticket,
            "slot": it.slot,
            "from": it.start,
            "to": it.end,
            "pressed_ms": None if it.is_from_before else it.pressed_at,
            "car": it.car or None,
            "aboard": it.is_aboard,
        }
        for _, it in sorted(group.calls.items())
    ]
    queued = [{"from": start, "to": end, "pressed_ms": at} for start, end, _, at in group.queued]
    denials = [{"car": car, "rule": rule, "count": times} for (car, rule), times in sorted(counts.denials.items())]
    presses = {it: counts.presses[it] for it in ("new", "already", "refused")}
    log = {
        "path": asked.path,
        "bytes": asked.size,
        "lines": counts.lines,
        "damaged_lines": counts.damaged,
        "missing_records": counts.missing,
    }
    run = {
        "number": counts.runs,
        "goes_on": group.goes_on,
        "calls_known": group.knows_calls or not group.goes_on,
        "status": group.status,
        "late": is_late(group, asked),
        "last_round_ms": group.refreshed_at,
        "reply_ms": group.reply,
    }
    totals = {"rounds": counts.rounds, "ends": counts.ends, "entered": counts.entered, "served": counts.served}
    waits = {"boarded": counts.boarded, "waited_ms": counts.waited}
    whole = {
        "configuration": asked.configuration,
        **group.sizes._asdict(),
        "watchdog_ms": asked.watchdog,
        "now_ms": asked.now,
        "log": log,
        "run": run,
        "fire": bool(group.fire),
        "run_limit": group.limit,
        "plant_clock_ms": group.now,
        "group": cars,
        "calls": calls,
        "queued": queued,
        "totals": {**totals, **waits, "presses": presses, "denials": denials},
    }
    return json.dumps(whole) + "\n"


def label(text: str) -> str:
    return text.replace("\\", "\\\\").replace('"', '\\"').replace("\n", "\\n")


def as_metrics(group: GroupLog, asked: Asked) -> str:
    """In the text form of Prometheus, 0.0.4."""
    return "".join(
        lines(name, kind, what, samples)
        for name, kind, what, samples in [*state_metrics(group, asked), *car_metrics(group), *count_metrics(group)]
    )


def lines(name: str, kind: str, what: str, samples: list[tuple[str, float]]) -> str:
    head = f"# HELP liftplc_{name} {what}\n# TYPE liftplc_{name} {kind}\n"
    return head + "".join(f"liftplc_{name}{labels} {value}\n" for labels, value in samples)


def state_metrics(group: GroupLog, asked: Asked):
    def gauge(name, what, value):
        return name, "gauge", what, [("", value)]

    yield "info", "gauge", "The configuration that is shown; always 1.", [
        (f'{{configuration="{label(asked.configuration)}"}}', 1)
    ]
    yield gauge(
        "late",
        "1 where no round comes: the last is older than the watchdog's time, or serve has ended.",
        int(is_late(group, asked)),
    )
    yield gauge("ended", "1 where serve has ended.", int(group.status is not None))
    if group.status is not None:
        yield gauge("end_status", "The status with which serve ended; below 0 it is that of a signal.", group.status)
    if group.refreshed_at is not None:
        yield gauge(
            "last_round_timestamp_seconds",
            "When the last R line went in, since 1970-01-01 UTC.",
            group.refreshed_at / 1000,
        )
    if group.reply is not None:
        yield gauge("reply_seconds", "From the last R line to its outputs.", group.reply / 1000)
    yield gauge("fire", "FIRE of the last R line.", group.fire)
    yield gauge("run_limit", "RUNLIMIT of the last R line.", group.limit)
    yield gauge("call_slots", "Call slots of the group.", group.sizes.slots)
    yield gauge("call_slots_used", "Call slots that are taken.", len(group.calls))
    yield gauge(
        "calls_waiting",
        "Calls in call slots that wait at a landing.",
        sum(not it.is_aboard for it in group.calls.values()),
    )
    yield gauge("presses_queued", "Presses in no call slot yet.", len(group.queued))
    yield gauge("log_bytes", "Bytes of the log.", asked.size)


def car_metrics(group: GroupLog):
    def of_cars(name, what, value):
        return (
            f"car_{name}",
            "gauge",
            what,
            [(f'{{car="{k}"}}', int(value(car))) for k, car in enumerate(group.cars, 1)],
        )

    yield of_cars("floor", "POS of the last R line.", lambda it: it.floor)
    for name in FLAGS:
        yield of_cars(name, f"{name.upper()} of the last R line.", lambda it, flag=name: it.flag(flag))
    yield of_cars("motor", "The motor's command: 1 up, -1 down, 0 still.", lambda it: it.motor)
    yield of_cars("open", "1 where the open command is given.", lambda it: it.open)


def count_metrics(group: GroupLog):
    counts = group.counts
    for name, what, value in (
        ("rounds_total", "R lines that were answered.", counts.rounds),
        ("runs_total", "Runs that began.", counts.runs),
        ("ends_total", "Runs whose end the log has.", counts.ends),
        ("calls_entered_total", "Calls that entered a call slot.", counts.entered),
        ("calls_served_total", "Calls that were served.", counts.served),
        ("calls_boarded_total", "Calls that were fetched at their landing.", counts.boarded),
        (
            "waited_seconds_total",
            "From the press to the boarding, of all calls that were fetched.",
            counts.waited / 1000,
        ),
        ("log_lines_total", "Lines of the log.", counts.lines),
        ("log_damaged_lines_total", "Lines of the log that are no record of this group.", counts.damaged),
        ("log_missing_records_total", "Records that the log took not.", counts.missing),
    ):
        yield name, "counter", what, [("", value)]
    presses = [(f'{{answer="{it}"}}', counts.presses[it]) for it in ("new", "already", "refused")]
    yield "presses_total", "counter", "Presses, by the answer.", presses
    denials = [
        (f'{{car="{car}",rule="{rule}"}}', counts.denials[car, rule])
        for car in range(1, group.sizes.cars + 1)
        for rule in range(1, RULES + 1)
    ]
    yield "denials_total", "counter", "Denials, by car and interlock rule.", denials
