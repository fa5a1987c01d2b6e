"""A scenario on a group: the plant, the passengers, and what is wrong by what they see.

A passenger presses, waits for the car to which the call is assigned, gets in where that car stands at their floor with
its door wholly open and has room, and gets out where a door is wholly open at their destination. Whose call is served
while they wait presses again. Whose call is served while they are in a car gets out at the next open door, and presses
again there unless it is their destination. To step through a door takes no time: all who want get out, and then all
get in who have room, in the order in which their calls were assigned.

PROPERTIES has what is judged; docs/TORTURE.md has each one's exact meaning.
"""
from __future__ import annotations

from collections import defaultdict, deque
from dataclasses import dataclass, field
from math import ceil

from lib.sizes import Sizes
from lib.torture.machine import Answer, Fields, Machine
from lib.torture.plants import SENSORS, made_cars, ride
from lib.torture.scenario import Fault, Press, Scenario

MS_A_ROUND, ROUNDS_A_SECOND = 100, 10
MOST_NOW = 2_147_483_647
EACH = 10  # rounds from one look of the judge to the next
QUIET_AFTER = 300  # rounds that a run goes on when all is done
FEWEST = 20  # passengers of whom a 95th of 100 is taken
SPARE = 4  # passengers
RECOVERY = 1200  # rounds in which a group gets over what failed
OTHERS_RUN = 5  # the rule that a program can't see coming

PROPERTIES = {
    "served": "a passenger whose call entered is at their destination within T of the entry",
    "entered": "while a press waits for a call slot, no T passes in which no call enters",
    "moves": "no car with an assigned call stands for T",
    "opens": "whoever is in a car gets out within T",
    "shuts": "no door is open for T while nobody is in the car or waits at it",
    "fair": "no passenger waits longer than K times the 95th of 100, and than a minute",
    "quiet": "no car asks for the same denied command for T without a break",
    "slots": "T after the last passenger all call slots are free",
    "dead": "while one car is dead for good, whoever isn't in it is at their destination within T",
}


def default_times(scenario: Scenario, sizes: Sizes) -> dict[str, int]:
    """T of each property in rounds, and K of `fair`. That of `served` is the time in which one car could take all
    passengers one by one, and SPARE more; where something fails, RECOVERY more.
    """
    many = min(len(scenario.presses), crowd(sizes))
    served = ride(scenario.plant, sizes.floors) * (many + SPARE) + (RECOVERY if scenario.faults else 0)
    usual = {"moves": RECOVERY, "shuts": 600, "quiet": 600, "fair": 5, "dead": served + RECOVERY}
    return {name: usual.get(name, served) for name in PROPERTIES}


def crowd(sizes: Sizes) -> int:
    """How many passengers there are at a time at most."""
    return min(sizes.slots, 16) + 4


@dataclass(frozen=True)
class Rules:
    """What is judged, and by what times."""

    sizes: Sizes
    wanted: frozenset[str]
    times: dict[str, int] = field(default_factory=dict)  # those that aren't the default, in rounds
    capacity: int = 8
    stops_at: str = ""  # the run ends where this one fails

    def times_of(self, scenario: Scenario) -> dict[str, int]:
        return {**default_times(scenario, self.sizes), **self.times}


@dataclass(frozen=True)
class Failure:
    """That a property fails."""

    name: str
    at: int  # the round in which it is seen
    what: str
    cars: tuple[int, ...] = ()  # of which it is
    slots: tuple[int, ...] = ()


class Passenger:
    __slots__ = ("start", "goal", "floor", "pressed", "entered", "ticket", "car", "boarded", "waited", "is_stray")

    def __init__(self, start: int, goal: int, now: int):
        self.start, self.goal, self.floor, self.pressed = start, goal, start, now
        self.entered = 0  # the round in which their first call entered
        self.ticket = self.car = 0  # of the call by which they go now; the car to which it is assigned
        self.boarded = 0  # the round in which they got in; 0 where they are in no car
        self.waited = -1  # rounds from the press until they first got in
        self.is_stray = False  # in a car, and their call was served elsewhere


@dataclass
class Call:
    slot: int
    goal: int
    people: list[Passenger]
    car: int = 0


class Run:
    """Of one scenario. `failures` is the first one of each property, `presses` what was pressed, `heard` all rounds."""

    def __init__(self, scenario: Scenario, rules: Rules, machine: Machine, keeps: bool = False):
        self.scenario, self.rules, self.machine, self.times = scenario, rules, machine, rules.times_of(scenario)
        cars, floors, _ = rules.sizes
        self.cars = made_cars(scenario.plant, cars, floors)
        self.outputs = [(0, 0)] * cars
        self.now, self.clock, self.limit, self.fire = 0, 0, cars, False
        self.crowd = crowd(rules.sizes)
        self.due: deque[Press] = deque(scenario.presses)
        self.again: list[Passenger] = []  # who press in the next round
        self.desk: dict[tuple[int, int], deque[tuple[int, list[Passenger]]]] = defaultdict(
            deque
        )  # by call: when it was pressed, and by whom
        self.calls: dict[int, Call] = {}  # by ticket, those that hold a slot
        self.under_way: list[Passenger] = []
        self.aboard: list[list[Passenger]] = [[] for _ in range(cars)]
        self.waiting: list[dict[int, list[Passenger]]] = [
            defaultdict(list) for _ in range(cars)
        ]  # by floor, who waits for the car
        self.work = [0] * cars  # calls that are assigned to the car
        self.since = [[0, 0, 0] for _ in range(cars)]  # the last rounds: without work; of use of the door; of a fault
        self.calm_since = self.last_entry = self.last_done = 0
        self.changes = sorted(
            {it.at for it in scenario.faults} | {it.last() + 1 for it in scenario.faults if not it.is_for_good()}
        ) + [0]
        self.next_change, self.disturbed, self.bad = 0, False, set()
        self.gone: set[int] = set()  # cars that are dead for good, from 0
        self.denials: dict[
            tuple[int, int], int
        ] = {}  # by car and rule, the first round of those that came in each round since
        self.waits: list[int] = []
        self.failures: dict[str, Failure] = {}
        self.turned_away: list[Press] = []
        self.last: Answer | None = None
        self.keeps, self.heard = keeps, []  # what was pressed, reported and answered in each round
        self.presses: list[Press] = []
        self.tried = set(PROPERTIES) - {"dead", "fair"}  # those that could fail in it
        longest = max(self.times[name] for name in (rules.wanted - {"fair"} or {"served"}))
        late = self.times["served"] if "opens" in rules.wanted else 2 * RECOVERY  # who gets in late may stay in for T
        self.ends_at = scenario.last() + late + longest + 2 * EACH

    def play(self) -> Run:
        while not self.is_over():
            self.step()
        if "fair" in self.rules.wanted and not self.scenario.faults:
            self.judge_fairness()
        return self

    def is_over(self) -> bool:
        if self.now % EACH:
            return False
        if self.rules.stops_at in self.failures or self.now >= self.ends_at:
            return True
        is_done = (
            not (self.due or self.again or self.under_way or self.calls or self.denials)
            and self.now > self.scenario.last()
        )
        if not is_done or any(car.door for at, car in enumerate(self.cars) if at not in self.gone):
            return False
        return self.now > max(self.scenario.last(), self.last_done) + QUIET_AFTER

    def step(self):
        self.now = now = self.now + 1
        self.clock = (self.clock + MS_A_ROUND) % (MOST_NOW + 1)
        if now == self.changes[self.next_change]:
            self.change()
        for at, car in enumerate(self.cars):
            motor, opens = self.outputs[at]
            if motor or opens or car.door or car.direction:
                car.step(motor, opens, now)
                if car.landing:
                    self.cross(at, car.landing)
        pressing = self.who_press() if self.again or (self.due and self.due[0].at <= now) else ()
        fields = Fields(self.clock, self.limit, self.fire, [car.fields for car in self.cars])
        presses = [(it.floor, it.goal) for it in pressing]
        answer = self.machine.round(presses, fields)
        if self.keeps:
            self.heard.append((presses, fields, answer))
        if answer is not self.last:
            self.hear(pressing, answer)
        if not now % EACH:
            self.judge()

    # The passengers.

    def who_press(self) -> list[Passenger]:
        pressing, self.again = self.again, []
        while self.due and self.due[0].at <= self.now:
            press = self.due.popleft()
            if len(self.under_way) < self.crowd:
                passenger = Passenger(press.start, press.goal, self.now)
                self.under_way.append(passenger)
                pressing.append(passenger)
            else:
                self.turned_away.append(press)
        self.presses += [Press(self.now, it.floor, it.goal) for it in pressing]
        return pressing

    def cross(self, at: int, floor: int):
        """The door is wholly open: who want get out, and then in."""
        aboard, waiting = self.aboard[at], self.waiting[at].get(floor)
        if aboard:
            for passenger in [it for it in aboard if it.goal == floor or it.is_stray]:
                aboard.remove(passenger)
                self.leave(passenger, floor)
                self.since[at][1] = self.now
        while waiting and len(aboard) < self.rules.capacity:
            passenger = waiting.pop(0)
            passenger.boarded = self.now
            if passenger.waited < 0:
                passenger.waited = self.now - passenger.pressed
                self.waits.append(passenger.waited)
            aboard.append(passenger)
            self.since[at][1] = self.now

    def leave(self, passenger: Passenger, floor: int):
        passenger.boarded, passenger.floor, passenger.is_stray = 0, floor, False
        if floor == passenger.goal:
            self.under_way.remove(passenger)
            self.last_done = self.now
        else:
            self.press_again(passenger)

    def press_again(self, passenger: Passenger):
        passenger.ticket = passenger.car = 0
        self.again.append(passenger)

    # What the group says.

    def hear(self, pressing: list[Passenger], answer: Answer):
        for passenger, is_new in zip(pressing, answer.is_new):
            queue = self.desk[passenger.floor, passenger.goal]
            if is_new or not queue:
                queue.append((self.now, [passenger]))
            else:
                queue[-1][1].append(passenger)
        denied = {}
        for notice in answer.notices:
            kind = notice[0]
            if kind == "denied":
                denied[notice[1:]] = self.denials.get(notice[1:], self.now)
            elif kind == "entered":
                self.hear_entered(*notice[1:])
            elif kind == "told":
                self.hear_told(*notice[1:])
            else:
                self.hear_served(*notice[1:])
        self.denials, self.outputs = denied, answer.outputs
        self.last = None if pressing or any(it[0] != "denied" for it in answer.notices) else answer

    def hear_entered(self, ticket: int, slot: int, start: int, goal: int):
        queue = self.desk[start, goal]
        people = queue.popleft()[1] if queue else []
        self.calls[ticket] = Call(slot, goal, people)
        self.last_entry = self.now
        for passenger in people:
            passenger.ticket = ticket
            passenger.entered = passenger.entered or self.now

    def hear_told(self, ticket: int, number: int):
        call, at = self.calls[ticket], number - 1
        call.car = number
        if not self.work[at]:
            self.since[at][0] = self.now
        self.work[at] += 1
        for passenger in call.people:
            passenger.car = number
            self.waiting[at][passenger.floor].append(passenger)

    def hear_served(self, ticket: int, number: int):
        call = self.calls.pop(ticket)
        self.work[number - 1] -= 1
        for passenger in call.people:
            if passenger.ticket != ticket:
                continue
            if passenger.boarded:
                passenger.is_stray = True
            elif passenger.floor != passenger.goal:
                self.waiting[number - 1][passenger.floor].remove(passenger)
                self.press_again(passenger)

    # What fails in the field.

    def change(self):
        """The faults of this round are those that hold."""
        held = [it for it in self.scenario.faults if it.at <= self.now and (it.is_for_good() or self.now <= it.last())]
        self.next_change += 1
        for fault in held:
            if fault.kind == "NOW" and fault.at == self.now:
                self.clock = fault.value
        self.fire = any(it.kind == "FIRE" for it in held)
        self.limit = min([len(self.cars), *(it.value for it in held if it.kind == "LIMIT")])
        was_bad, was_disturbed = self.bad, self.disturbed
        passing = [it for it in held if not it.is_for_good()]
        self.gone = {it.car - 1 for it in held if it.is_for_good()}
        self.tried |= {"dead"} if self.gone else set()
        of_all = any(not it.car for it in passing)
        self.bad = set(range(len(self.cars))) if of_all else {it.car - 1 for it in passing}
        self.disturbed = bool(passing)
        for at, car in enumerate(self.cars):
            self.fail(car, [it for it in held if it.car == at + 1])
            if at in self.bad | was_bad:
                self.since[at][2] = self.now
        if self.disturbed or was_disturbed or any(it.at == self.now for it in held):
            self.calm_since = self.now

    def fail(self, car, held: list[Fault]):
        kinds = {it.kind for it in held}
        car.dead, car.held, car.jammed, car.slow = (kind in kinds for kind in ("DEAD", "HELD", "JAMMED", "SLOW"))
        car.sensors = {it.kind: bool(it.value) for it in held if it.kind in SENSORS}
        car.show()

    # What is wrong.

    def fault(self, name: str, what: str, cars: tuple[int, ...] = (), slots: tuple[int, ...] = ()):
        if name in self.rules.wanted and name not in self.failures:
            self.failures[name] = Failure(name, self.now, what, cars, slots)

    def judge(self):
        for at, car in enumerate(self.cars):
            self.judge_car(at, car)
        self.judge_denials()
        if not self.disturbed:
            self.judge_passengers()

    def judge_car(self, at: int, car):
        work, used, good = self.since[at]
        aboard = self.aboard[at]
        if aboard or self.waiting[at].get(car.fields[0]):
            used = self.since[at][1] = self.now
        if at in self.gone or at in self.bad:
            return
        times = self.times
        if self.work[at] and self.now - max(work, car.moved_at, good) > times["moves"]:
            has = f"car {at + 1} has {counted(self.work[at], 'call')}"
            what = f"{has}, and stands at floor {car.fields[0]} for {shown(times['moves'])}"
            self.fault("moves", what, (at + 1,), self.slots_of(at + 1))
        if car.door and self.now - max(car.opened_at, used, good) > times["shuts"]:
            door = f"the door of car {at + 1} at floor {car.fields[0]}"
            self.fault("shuts", f"{door} is open for {shown(times['shuts'])}, and nobody uses it", (at + 1,))
        for passenger in aboard:
            if self.now - max(passenger.boarded, good) > times["opens"]:
                what = f"{who(passenger)} is in car {at + 1} for {shown(times['opens'])}"
                self.fault("opens", what, (at + 1,), self.slots_of(at + 1))

    def judge_denials(self):
        for (car, rule), first in self.denials.items():
            if rule != OTHERS_RUN and self.now - first > self.times["quiet"]:
                self.fault(
                    "quiet",
                    f"car {car} is denied by rule {rule} in each round for {shown(self.times['quiet'])}",
                    (car,),
                )

    def judge_passengers(self):
        name = "dead" if self.gone else "served"
        for passenger in self.under_way:
            waits = passenger.entered and self.now - max(passenger.entered, self.calm_since) > self.times[name]
            if waits and not self.is_shut_in(passenger):
                time = f"{shown(self.times[name])} after {self.begin(passenger.entered)}"
                slot = (self.calls[passenger.ticket].slot,) if passenger.ticket in self.calls else ()
                cars = (passenger.car,) if passenger.car else ()
                self.fault(name, f"{who(passenger)} is {where(passenger)} {time}", cars, slot)
        if not self.gone:
            self.judge_entries()
            self.judge_slots()

    def judge_entries(self):
        for (start, goal), queue in self.desk.items():
            if queue and self.now - max(queue[0][0], self.calm_since, self.last_entry) > self.times["entered"]:
                press = f"the press from {start} to {goal} of round {queue[0][0]}"
                self.fault(
                    "entered", f"{press} waits for a call slot, and none enters for {shown(self.times['entered'])}"
                )

    def judge_slots(self):
        is_over = self.calls and not (self.under_way or self.due)
        if is_over and self.now - max(self.last_done, self.calm_since) > self.times["slots"]:
            taken = tuple(sorted(call.slot for call in self.calls.values()))
            cars = tuple(sorted({call.car for call in self.calls.values() if call.car}))
            time = f"{shown(self.times['slots'])} after the last passenger"
            self.fault("slots", f"{counted(len(taken), 'call slot')} not free {time}", cars, taken)

    def begin(self, entered: int) -> str:
        return (
            "the call entered"
            if entered >= self.calm_since
            else "all faults ended"
            if not self.gone
            else "the last event of the field"
        )

    def is_shut_in(self, passenger: Passenger) -> bool:
        return bool(passenger.boarded) and passenger.car - 1 in self.gone

    def slots_of(self, car: int) -> tuple[int, ...]:
        return tuple(sorted(call.slot for call in self.calls.values() if call.car == car))

    def judge_fairness(self):
        """By those who got in, and those who still wait."""
        still = [it for it in self.under_way if it.waited < 0]
        waits = sorted(self.waits + [self.now - it.pressed for it in still])
        if len(waits) < FEWEST:
            return
        self.tried.add("fair")
        usual = waits[ceil(0.95 * len(waits)) - 1]
        if waits[-1] > max(self.times["fair"] * usual, 60 * ROUNDS_A_SECOND):
            self.fault("fair", f"a passenger waits {shown(waits[-1])}, and 95 of 100 at most {shown(usual)}")


def shown(rounds: int) -> str:
    return f"{rounds / ROUNDS_A_SECOND:g} s"


def counted(many: int, what: str) -> str:
    return f"{many} {what}{'' if many == 1 else 'es' if what.endswith('s') else 's'}"


def who(passenger: Passenger) -> str:
    return f"the passenger from {passenger.start} to {passenger.goal}, who pressed in round {passenger.pressed},"


def where(passenger: Passenger) -> str:
    if passenger.boarded:
        return f"still in car {passenger.car}"
    return f"still at floor {passenger.floor}" + (f", waiting for car {passenger.car}," if passenger.car else "")
