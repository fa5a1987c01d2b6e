"""A dispatcher that knows all: in place of `serve` it answers the lines of a building, for `tools/study --bound`.

Cars, call slots and desk are those of `serve` with a program of tools/group: `CarProgram` has the rules of
tools/lib/group/car.st, `Desk` those of serve. But where GROUP has to work out who is in a car and how long a stop
takes, `Exact` looks at the building. It plays each car on with the new call, round by round, until all its people are
at their floors, and so knows when each of them will be there if nobody else comes. It assigns the call where this costs
least time.

Times are in rounds.
"""
from __future__ import annotations

from bisect import insort
from collections import defaultdict, deque
from copy import copy
from dataclasses import dataclass, field
from math import ceil

from lib.building import ROUNDS_A_SECOND, Arrival, Building, Car, Passenger, Plant, Timetable
from lib.group_text import PARK_AT_ONCE, SCAN, Group

STILL, UP, DOWN = 0, 1, -1
MOST_PASSING = 600  # rounds
MOST_AHEAD = 6000  # rounds that a car is played on
LOST = 600  # rounds more for who is not carried then: they press again, and wait for another trip
FROM_MAIN_OF, UP_PEAK_FROM = 100, 70  # of the last calls so many come from floor 1 in an up-peak, as in GROUP
WAITING = 0.2  # what a round of waiting costs beside a round until the destination
# What a round by which a car is busy longer costs those who come later, for each call that a car has on average.
CROWDING = 0.3


class Timer:
    """TON, in rounds."""

    __slots__ = ("runs", "is_over", "elapsed", "last")

    def __init__(self):
        self.runs = self.is_over = False
        self.elapsed = self.last = 0

    def __call__(self, now: int, runs: bool, preset: int) -> bool:
        if not runs:
            self.elapsed, self.is_over = 0, False
        else:
            self.elapsed = min(preset, self.elapsed + now - self.last) if self.runs else 0
            self.is_over = self.elapsed >= preset
        self.runs, self.last = runs, now
        return self.is_over

    def left(self, preset: int) -> int:
        """Rounds until it is over; where it doesn't run or is over, it changes nothing for long."""
        return preset - self.elapsed if self.runs and not self.is_over else MOST_AHEAD


@dataclass(order=True)
class Told:
    """A call that is assigned to a car."""

    slot: int
    ticket: int = field(compare=False)
    start: int = field(compare=False)
    goal: int = field(compare=False)
    since: int = field(compare=False)  # the round in which it was assigned
    is_aboard: bool = field(compare=False, default=False)


@dataclass(frozen=True)
class Times:
    """The settings of tools/group, in rounds."""

    capacity: int
    dwell: int
    transfer: int
    hold: int
    park: int
    park_in_up_peak: int

    @classmethod
    def of(cls, group: Group) -> Times:
        milliseconds = group.dwell, group.transfer, group.hold_time(), group.park, min(PARK_AT_ONCE, group.park)
        return cls(group.capacity, *(time // SCAN for time in milliseconds))


class CarProgram:
    """COLLECTIVE_CAR of tools/lib/group/car.st, without what it does when something fails. `motor` and `opens` are the
    committed outputs.
    """

    def __init__(self, number: int, home: int, times: Times):
        self.number, self.home, self.times = number, home, times
        self.calls: list[Told] = []  # by slot
        self.motor, self.opens = STILL, False
        self.direction, self.came_from = STILL, 0
        self.wishes_open = self.let_out = self.has_started = False
        self.load = self.passing = self.longest = self.going_on = self.kept = 0
        self.above = self.below = self.up_here = self.down_here = self.out_here = self.moved = False
        self.dwell, self.passage, self.held, self.idle = (Timer() for _ in range(4))

    def assign(self, told: Told):
        insort(self.calls, told)

    def copied(self) -> CarProgram:
        other = copy(self)
        other.calls = [copy(it) for it in self.calls]
        other.dwell, other.passage, other.held, other.idle = (
            copy(self.dwell),
            copy(self.passage),
            copy(self.held),
            copy(self.idle),
        )
        return other

    def look(self, now: int, floor: int, is_open: bool, is_shut: bool) -> Told | None:
        """CALLS_OF_CAR, over all calls; the one that is served."""
        first, self.longest = self.longest, 0
        self.kept, self.going_on = self.going_on, 0
        self.above = self.below = self.up_here = self.down_here = self.out_here = self.moved = False
        capacity, served = self.times.capacity, None
        if is_shut:
            self.passing = 0
        for it in self.calls:
            if not it.is_aboard:
                if it.start > floor:
                    self.above = True
                    continue
                if it.start < floor:
                    self.below = True
                    continue
                if self.held.is_over:
                    continue
                waited = now - it.since
                if not (is_open and self.load < capacity and waited >= first):
                    self.longest = max(self.longest, waited)
                    if self.kept < capacity:
                        if it.goal < floor:
                            self.down_here = self.below = True
                        else:
                            self.up_here = self.above = True
                    continue
                it.is_aboard = True
                self.load += 1
                self.pass_door()
            if it.goal == floor:
                self.out_here = True
                if is_open and not served:
                    served = it
                    self.load = max(self.load, 1) - 1
                    self.pass_door()
                continue
            self.going_on = min(self.going_on + 1, capacity)
            if it.goal > floor:
                self.above = True
            else:
                self.below = True
        return served

    def pass_door(self):
        self.moved = True
        self.passing = min(self.passing, MOST_PASSING) + self.times.transfer

    def here(self) -> bool:
        return (self.up_here if self.direction == UP else self.down_here) or self.out_here or not self.let_out

    def scan(self, now: int, car: Car, is_up_peak: bool) -> Told | None:
        """A refresh, a scan and its commit; the call that is served."""
        floor, is_level, is_locked = car.shown, car.level, not car.door
        self.motor = (
            STILL if is_level and floor == (car.top if self.motor == UP else 1) else self.motor
        )  # interlock rule 3
        is_open = is_level and car.door == car.wide
        served, times = self.look(now, floor, is_open, is_locked), self.times
        if served:
            self.calls.remove(served)
        above, below = self.above, self.below
        self.dwell(now, is_open and not self.moved, times.dwell)
        self.passage(now, is_open, self.passing)
        is_over = self.dwell.is_over and self.passage.is_over
        self.held(now, not self.motor and (above or below), times.hold)
        self.let_out = self.let_out or is_over
        self.has_started = self.has_started or (self.let_out and is_locked)
        has_work = above or below or self.out_here or (self.has_started and not is_locked)
        if self.idle(now, not has_work, times.park_in_up_peak if is_up_peak else times.park):
            home = 1 if is_up_peak else self.home
            above, below = floor < home, floor > home
        if self.motor:
            self.run(floor, is_level, above, below)
        elif is_level:
            self.stand(floor, is_locked, is_over, above, below)
        return served

    def run(self, floor: int, is_level: bool, above: bool, below: bool):
        self.direction = self.motor
        if not is_level or (floor == self.came_from and self.let_out):
            return
        is_here = self.here()
        if is_here or not (above if self.direction == UP else below):
            self.motor = STILL
            self.wishes_open = self.opens = is_here

    def stand(self, floor: int, is_locked: bool, is_over: bool, above: bool, below: bool):
        self.direction = DOWN if below and (self.direction == DOWN or not above) else UP if above else STILL
        self.wishes_open = (self.wishes_open and not is_over) or self.here()
        self.opens = self.wishes_open
        if not self.wishes_open and is_locked:
            self.came_from, self.motor = floor, self.direction


class Ahead(Building):
    """A car with its people and calls, played on from now without others."""

    def __init__(self, building: Building, car: Car, program: CarProgram):
        self.plant, self.now, self.carried, self.lost = building.plant, building.now, 0, 0
        self.car, self.program = copy(car), program.copied()
        self.people: dict[int, Passenger] = {}  # by number, copies
        for name in ("aboard", "waiting"):
            setattr(
                self.car,
                name,
                defaultdict(
                    deque, {floor: deque(map(self.copied, of)) for floor, of in getattr(car, name).items() if of}
                ),
            )
        self.car.unboarded, self.car.strays = defaultdict(deque), []
        self.car.crosser = self.copied(car.crosser) if car.crosser else None

    def copied(self, passenger: Passenger) -> Passenger:
        other = self.people[passenger.number] = copy(passenger)
        return other

    def add(self, told: Told, people: list[Passenger]):
        """A new call of this car."""
        self.program.assign(told)
        self.car.waiting[told.start].extend(map(self.copied, people))

    def press_again(self, passenger: Passenger):
        self.lost += 1

    def leave(self, car: Car):
        waiting = car.waiting[car.start]
        self.lost += sum(it.refused for it in waiting)
        car.waiting[car.start] = deque(it for it in waiting if not it.refused)

    def round(self):
        self.now += 1
        car = self.car
        if car.direction:
            car.fly()
        elif car.door or car.open or car.motor:
            self.stand(car)
        served = self.program.scan(self.now, car, False)
        car.motor, car.open = self.program.motor, self.program.opens
        if served:  # who has not boarded yet presses again
            for passenger in [it for it in car.waiting[served.start] if it.call and it.call.ticket == served.ticket]:
                car.waiting[served.start].remove(passenger)
                self.lost += 1

    def still_round(self) -> int:
        """Rounds until something else than a clock, a flight, a door or who is in the doorway goes on."""
        car, program = self.car, self.program
        most = program.held.left(program.times.hold)
        if car.direction:
            if car.target:
                return min(most, self.car.times.standing[car.start][car.target] - car.flown)
            return 0 if car.level else min(most, car.times.last_stop[car.start][car.ahead] - car.flown)
        if 0 < car.door < car.wide:
            return min(most, ceil((car.wide - car.door) / car.opens_by) if car.open else ceil(car.door / car.shuts_by))
        if not car.door or program.moved:
            return 0
        if not car.crosser and (
            not car.open or car.aboard[car.shown] or (car.waiting[car.shown] and car.load < car.capacity)
        ):
            return 0
        crossing = car.crossing if car.crosser else MOST_AHEAD
        return min(most, crossing, program.dwell.left(program.times.dwell), program.passage.left(program.passing))

    def skip(self):
        """Rounds up to the one before something happens, at once."""
        rounds, car = self.still_round() - 2, self.car
        if rounds <= 0 or rounds >= MOST_AHEAD - 2:
            return
        self.now += rounds
        if car.direction:
            car.flown += rounds
        elif car.door < car.wide:
            car.door += rounds * (car.opens_by if car.open else -car.shuts_by)
        elif car.crosser:
            car.crossing -= rounds

    def play_on(self, skips: bool = True) -> Ahead:
        """Until all its people are at their floors."""
        car, end = self.car, self.now + MOST_AHEAD
        while (car.load or car.crosser or any(car.waiting.values())) and self.now < end:
            if skips:
                self.skip()
            self.round()
        return self

    def times(self) -> dict[int, tuple[int, int]]:
        """For each of its people, the rounds in which they get in, and are at their floor."""
        late = self.now + LOST
        of = {
            number: [round(time * ROUNDS_A_SECOND) if time >= 0 else late for time in (it.boarded, it.left)]
            for number, it in self.people.items()
        }
        return {number: (boarded, left) for number, (boarded, left) in of.items()}


class Desk:
    """Presses and call slots, by the rules of `serve`."""

    def __init__(self, slots: int):
        self.desk: set[tuple[int, int]] = set()
        self.hand: set[tuple[int, int]] = set()
        self.free = list(range(1, slots + 1))
        self.tickets = 0

    def press(self, start: int, goal: int) -> bool:
        """Whether it is new."""
        is_new = (start, goal) not in self.desk
        self.desk.add((start, goal))
        return is_new

    def entered(self) -> list[Told]:
        """The calls that enter in this round; `since` isn't known yet."""
        held = {start for start, _ in self.hand}
        gathered = {it for it in self.desk if it[0] not in held}
        self.desk -= gathered
        self.hand |= gathered
        made = []
        for start, goal in sorted(self.hand)[: len(self.free)]:
            self.hand.remove((start, goal))
            self.tickets += 1
            made.append(Told(self.free.pop(0), self.tickets, start, goal, 0))
        return made

    def serve(self, told: Told):
        insort(self.free, told.slot)


class InTurn:
    """The cars in turn, as `tools/group --dispatch turn` has them."""

    def __init__(self):
        self.last = 0

    def car_for(self, controller: Exact, _told: Told, _people: list[Passenger]) -> int:
        self.last = self.last % len(controller.programs) + 1
        return self.last


class LeastTime:
    """The car in which it costs least time, of all people of that car together and of those who come later."""

    def __init__(self):
        self.known: dict[
            int, dict[int, tuple[int, int]]
        ] = {}  # by car, the times of its people as foreseen at its last call

    def car_for(self, controller: Exact, told: Told, people: list[Passenger]) -> int:
        building, programs = controller.building, controller.programs
        calls = sum(len(it.calls) for it in programs) / len(programs)
        least, chosen = float("inf"), (0, {})
        for car, program in zip(building.cars, programs):
            ahead = Ahead(building, car, program)
            ahead.add(copy(told), people)
            times = ahead.play_on().times()
            cost = self.cost(car.number, times, building.now, calls)
            if cost < least:
                least, chosen = cost, (car.number, times)
        number, self.known[number] = chosen
        return number

    def cost(self, number: int, times: dict[int, tuple[int, int]], now: int, calls: float) -> float:
        """In rounds: by how much later all get in and are there than without the new call, and by how much longer the
        car is busy.
        """
        known = self.known.get(number, {})
        before = [known.get(passenger, (now, now)) for passenger in times]
        later = sum(
            left - left_before + WAITING * (boarded - boarded_before)
            for (boarded, left), (boarded_before, left_before) in zip(times.values(), before)
        )
        busy = max(left for _, left in times.values()) - max(now, *(left for _, left in before))
        return later + CROWDING * calls * max(busy, 0)


class Exact:
    """In place of `serve`: the cars, the desk and a dispatcher. `building` is that whose lines it answers."""

    def __init__(self, group: Group, dispatcher: InTurn | LeastTime):
        times = Times.of(group)
        self.programs = [
            CarProgram(number, (number - 1) * group.floors // group.cars + 1, times)
            for number in range(1, group.cars + 1)
        ]
        self.desk, self.dispatcher = Desk(group.slots), dispatcher
        self.parks_in_up_peak = group.dispatch in ("estimated", "etd")
        self.waiting: list[Told] = []  # by slot
        self.from_main, self.is_up_peak = 0, False
        self.building: Building | None = None

    def ask(self, lines: bytes) -> bytes:
        answer = []
        for line in lines.split(b"\n")[:-2]:
            start, goal = map(int, line.split(b" ")[1:])
            answer.append(b"press %d %d %s" % (start, goal, b"new" if self.desk.press(start, goal) else b"already"))
        for it in self.desk.entered():
            answer.append(b"entered %d %d %d %d" % (it.ticket, it.slot, it.start, it.goal))
            insort(self.waiting, it)
        for program, car in zip(self.programs, self.building.cars):
            if served := program.scan(self.building.now, car, self.is_up_peak):
                self.desk.serve(served)
                answer.append(b"served %d %d" % (served.ticket, program.number))
        outputs = b"".join(b" %d %d" % (it.motor, it.opens) for it in self.programs)
        return b"\n".join([*answer, b"outputs" + outputs, b""])

    def assigned(self) -> Told | None:
        """The call in the lowest slot gets a car, as in GROUP."""
        if not self.waiting:
            return None
        told = self.waiting.pop(0)
        told.since = self.building.now
        people = self.building.calls[told.ticket - 1].people
        number = self.dispatcher.car_for(self, told, people)
        self.programs[number - 1].assign(told)
        self.from_main = (9 * self.from_main + (FROM_MAIN_OF if told.start == 1 else 0)) // 10
        self.is_up_peak = self.parks_in_up_peak and self.from_main >= UP_PEAK_FROM
        self.building.hear_told(told.ticket, number)
        return told

    def stop(self):
        pass

    def kill(self):
        pass


class Known(Building):
    """A building whose controller is an Exact."""

    def __init__(self, plant: Plant, times: Timetable, cars: int, people: list[Arrival], controller: Exact):
        super().__init__(plant, times, cars, people, controller)
        controller.building = self

    def step(self):
        super().step()
        self.controller.assigned()
