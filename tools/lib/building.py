"""A building with lifts and passengers, behind `serve`: what tools/building and tools/study run. docs/BUILDING.md has
the model.

Rounds count from 1, one an R line. A time in rounds is a round's number, which is that many tenths of a second.
"""
import os, sys, time
from collections import defaultdict, deque
from dataclasses import dataclass
from math import ceil, floor
from typing import Callable

sys.path.append(
    f"{os.path.dirname(os.path.dirname(os.path.dirname(os.path.realpath(__file__))))}/gateways"
)  # `lib` is there too
from lib.failures import Failure
from lib.kinematics import Drive, flight
from lib.serve import Ended, Serve
from lib.traffic import Arrival, Mix, arrivals

ROUND = 0.1  # s
ROUNDS_A_SECOND = 10
MS_A_ROUND = 100
MINUTE = 60  # s
MOST_ROUNDS = 21_474_836  # NOW ends at 2147483647 ms
RULES = 6  # of the interlock
SLACK = 1e-9  # rounds, against the rounding of floats


class Trouble(Exception):
    """The status, and one line that says why; it is empty where serve has said it."""


@dataclass(frozen=True)
class Plant:
    heights: tuple[float, ...]  # m above floor 1, floor 1 first
    drive: Drive
    opening: int  # rounds from shut to wholly open
    closing: int  # rounds from wholly open to shut
    transfer: int  # rounds that a passenger takes through the door
    capacity: int  # persons


@dataclass(frozen=True)
class Length:
    """Of a run, in minutes."""

    arrivals: float  # so long passengers come
    warm_up: float  # who arrive before that aren't counted in the figures
    drain: float  # the run ends when all are carried, or so long behind the last arrivals

    def rounds(self) -> int:
        return rounds(self.arrivals * MINUTE)

    def most_rounds(self) -> int:
        return rounds((self.arrivals + self.drain) * MINUTE)


@dataclass(frozen=True)
class Scene:
    """A building and its traffic, but for the demand and the seed."""

    plant: Plant
    population: list[int]  # people of each floor, floor 1 first
    mix: Mix
    length: Length


def rounds(seconds: float) -> int:
    return max(1, round(seconds * ROUNDS_A_SECOND))


class Timetable:
    """For each pair of floors, how many rounds behind the start the car can still stop there, and how many until it
    stands there.
    """

    def __init__(self, plant: Plant):
        count = len(plant.heights)
        self.floors = count
        self.last_stop = [[0] * (count + 2) for _ in range(count + 2)]
        self.standing = [[0] * (count + 2) for _ in range(count + 2)]
        for start in range(1, count + 1):
            for goal in range(1, count + 1):
                if start != goal:
                    way = flight(plant.drive, abs(plant.heights[goal - 1] - plant.heights[start - 1]))
                    self.last_stop[start][goal] = floor(way.last_stop / ROUND + SLACK)
                    self.standing[start][goal] = ceil(way.duration / ROUND - SLACK)
        self.check()

    def check(self):
        """Each floor needs a round of its own in which the controller can answer."""
        for start in range(1, self.floors + 1):
            for way in (range(start, self.floors + 1), range(start, 0, -1)):
                stops = [self.last_stop[start][goal] for goal in way]
                if any(later <= earlier for earlier, later in zip(stops, stops[1:])):
                    raise Trouble(
                        2, "floors are too near to each other for this speed: a car passes two of them in a round"
                    )


class Controller(Serve):
    """`serve` as a child: lines in, the whole answer of a round out. What fails is a Trouble."""

    def __init__(self, words: list[str]):
        try:
            super().__init__(words)
        except OSError as why:
            raise Trouble(3, f"cannot start {words[0]}: {why.strerror}") from why

    def ask(self, lines: bytes) -> bytes:
        try:
            return super().ask(lines)
        except Ended as end:  # where it has a status, it has said why
            raise Trouble(end.status, "") if end.status > 0 else Trouble(
                5, f"serve has ended before its answer, with status {end.status}"
            ) from end


class Call:
    """A ticket of the group, and the passengers who go by it. Times are rounds, 0 where it didn't happen."""

    __slots__ = ("ticket", "start", "goal", "entered", "told", "car", "boarded", "served", "at_goal", "people")

    def __init__(self, ticket: int, start: int, goal: int, entered: int, people: list):
        self.ticket, self.start, self.goal, self.entered, self.people = ticket, start, goal, entered, people
        self.told = self.car = self.boarded = self.served = 0
        self.at_goal = False  # the car stood at the goal with its door open when it was served


class Passenger:
    """Times in seconds, -1 where it didn't happen."""

    __slots__ = (
        "number", "arrived", "start", "goal", "floor", "call", "car", "boarded", "left", "door_boarding",
        "door_leaving", "presses", "found_full", "refused",
    )  # fmt: skip

    def __init__(self, number: int, arrival: Arrival):
        self.number, self.arrived, self.start, self.goal = number, arrival.time, arrival.start, arrival.goal
        self.floor = arrival.start  # where he waits; another one than start if he was let out on the way
        self.call = None  # the last ticket that he was given
        self.car = 0  # the car in which he is, or last was
        self.boarded = self.left = self.door_boarding = self.door_leaving = -1.0
        self.presses = self.found_full = 0
        self.refused = False  # the door of the told car shuts, and there was no room for him


class Car:
    """A car, its drive, its door and the people in it. Its fields are what the group is shown of it."""

    def __init__(self, number: int, plant: Plant, times: Timetable):
        self.number, self.times, self.top, self.capacity, self.transfer = (
            number,
            times,
            times.floors,
            plant.capacity,
            plant.transfer,
        )
        self.motor = self.open = 0  # the outputs of the last round
        self.opens_by, self.shuts_by = plant.closing, plant.opening  # a round's part of the door's way
        self.wide = plant.opening * plant.closing  # the door's way
        self.door = 0  # 0 shut, `wide` wholly open
        self.opened_at = 0  # the round in which the door began to open
        self.shown, self.level = 1, True  # the selector: POS and LEVEL
        self.direction = 0  # of the flight; 0 at standstill
        self.start = (
            self.ahead
        ) = (
            self.target
        ) = self.flown = 0  # floors of the flight, and rounds since its start; `target` is 0 until it lands
        self.aboard, self.waiting, self.unboarded = (
            defaultdict(deque) for _ in range(3)
        )  # by floor: people in it, people told to it, calls told to it
        self.strays: list[Passenger] = []  # of those aboard, whose call was served elsewhere
        self.load = self.left_loaded = self.loads = self.greatest = 0
        self.crosser, self.crossing, self.inward = (
            None,
            0,
            False,
        )  # who is in the doorway, for how many rounds more, and which way
        self.faults: list[str] = []
        self.is_dead = self.door_stays = self.level_is_lost = False  # what fails
        self.fields = b""
        self.show()

    def show(self):
        ends = self.level and self.shown == self.top, self.level and self.shown == 1
        flags = self.level and not self.level_is_lost, *ends, self.door == 0, self.door == self.wide
        self.fields = b" %d %d%d%d%d%d" % (self.shown, *flags)

    def fly(self):
        """One round of a flight."""
        if not self.target and self.motor != self.direction:
            self.target = self.shown if self.level else self.ahead
        elif not self.target and self.level and self.shown in (1, self.top):
            self.faults.append(f"car {self.number} was not stopped at floor {self.shown}, an end of its shaft")
            self.target = self.shown
        self.flown += 1
        if self.target and self.flown >= self.times.standing[self.start][self.target]:
            self.direction = 0
        elif self.target != self.shown and self.flown == self.times.last_stop[self.start][self.ahead]:
            self.shown, self.level = self.ahead, True
            self.ahead += self.direction
            self.show()
        elif self.level and self.target != self.shown:
            self.level = False
            self.show()

    def set_off(self) -> bool:
        """Starts a flight with the door shut, where there is a floor that way."""
        if not 1 <= self.shown + self.motor <= self.top:
            self.faults.append(f"car {self.number} was asked to leave its shaft at floor {self.shown}")
            return False
        self.direction, self.start, self.ahead = self.motor, self.shown, self.shown + self.motor
        self.target = self.flown = 0
        self.level = False
        self.fly()
        self.show()
        return True

    def move_door(self, now: int):
        """One round of a door that doesn't stay as it is."""
        if self.open:
            if not self.door:
                self.opened_at = now
            self.door = min(self.wide, self.door + self.opens_by)
        else:
            self.door = max(0, self.door - self.shuts_by)
        self.show()


class Building:
    """The plant and the passengers. `step` makes a round."""

    def __init__(self, plant: Plant, times: Timetable, cars: int, people: list[Arrival], controller: Controller):
        self.plant, self.controller = plant, controller
        self.cars = [Car(number, plant, times) for number in range(1, cars + 1)]
        self.people = [Passenger(number, arrival) for number, arrival in enumerate(people, 1)]
        self.due = [ceil(arrival.time * ROUNDS_A_SECOND) or 1 for arrival in people] + [MOST_ROUNDS + 1]
        self.arrived = self.carried = 0
        self.now = 0  # the last round
        self.pressing: list[Passenger] = []  # who press in this round
        self.pressed: dict[tuple[int, int], deque[list[Passenger]]] = defaultdict(
            deque
        )  # by call: for each one that has not entered, its people
        self.calls: list[Call] = []  # by ticket, from 1
        self.denied = [0] * (RULES + 1)  # by rule, from 1
        self.already = 0  # presses that were on the desk already
        self.let_out = 0  # times that somebody was let out on the way, since his call was served elsewhere
        self.last = b""  # the last `outputs` line
        self.failures: list[Failure] = []  # those to come and those that hold
        self.restart: Callable[[], Controller] | None = None  # starts the controller anew
        self.limit, self.fire = cars, False
        self.first = 0  # calls of earlier starts of the controller
        self.given_back = 0  # calls that ended before anybody got in

    def step(self):
        """A round: the plant goes on by 100 ms, passengers press, and the group answers."""
        self.now += 1
        if self.failures:
            self.fail()
        for car in self.cars:
            if car.direction:
                if not car.is_dead:
                    car.fly()
            elif car.door or car.open or car.motor:
                self.stand(car)
        while self.due[self.arrived] <= self.now:
            self.pressing.append(self.people[self.arrived])
            self.arrived += 1
        lines = (
            b"R %d %d %d" % (MS_A_ROUND * self.now, self.limit, self.fire)
            + b"".join([car.fields for car in self.cars])
            + b"\n"
        )
        if self.pressing:
            lines = b"".join([b"P %d %d\n" % (it.floor, it.goal) for it in self.pressing]) + lines
        answer = self.controller.ask(lines)
        if answer != self.last:
            self.hear(answer)

    def fail(self):
        """What fails in this round; what has ended is left out."""
        held = [it for it in self.failures if it.first <= self.now <= it.last]
        for car in self.cars:
            kinds = {it.kind for it in held if it.car == car.number}
            car.is_dead, car.door_stays, car.level_is_lost = ("dead" in kinds, "door" in kinds, "level" in kinds)
            car.show()
        self.fire = any(it.kind == "fire" for it in held)
        self.limit = min([len(self.cars), *(it.car for it in held if it.kind == "limit")])
        if any(it.kind == "restart" for it in held):
            self.start_anew()
        self.failures = [it for it in self.failures if self.now <= it.last]

    def start_anew(self):
        """The controller starts anew: its calls are gone. Who waits presses again, and who is in a car gets out where
        it opens.
        """
        self.controller.stop()
        self.controller, self.last, self.first = self.restart(), b"", len(self.calls)
        waiting = {passenger for people in self.pressed.values() for each in people for passenger in each}
        waiting |= {
            passenger
            for call in self.calls
            for passenger in call.people
            if passenger.call is call and passenger.boarded < 0
        }
        self.pressed.clear()
        for passenger in sorted(waiting, key=lambda it: it.number):
            self.press_again(passenger)
        for car in self.cars:
            car.motor = car.open = 0
            car.waiting.clear()
            car.unboarded.clear()
            car.strays = [passenger for people in car.aboard.values() for passenger in people] + (
                [car.crosser] if car.crosser and car.inward else []
            )

    def open_calls(self) -> int:
        """Calls that hold a slot."""
        return sum(not call.served for call in self.calls[self.first :])

    def stand(self, car: Car):
        """A round of a car that stands: people cross, the door moves, or it sets off."""
        if car.motor and (car.door or car.open):
            car.faults.append(f"car {car.number} was asked to run with its door not shut")
        if car.door == car.wide:
            self.cross(car)
            if not car.open and not car.crosser and not car.door_stays:
                for passenger in car.waiting[car.shown]:
                    passenger.refused = True
                car.move_door(self.now)
        elif car.door or car.open:
            if not (car.door_stays and car.door and not car.open):
                car.move_door(self.now)
        elif not car.is_dead and car.set_off():
            self.leave(car)
        if car.door == car.wide:
            for call in car.unboarded.pop(car.shown, ()):
                call.boarded = self.now

    def cross(self, car: Car):
        """A round of people in the doorway: first who want out, then who want in."""
        if car.crosser:
            car.crossing -= 1
            if car.crossing:
                return
            self.through(car)
        who = self.next_out(car)
        car.inward = not who and bool(car.waiting[car.shown]) and car.load < car.capacity
        if car.inward:
            who = car.waiting[car.shown].popleft()
            who.boarded, who.door_boarding, who.car = self.now * ROUND, car.opened_at * ROUND, car.number
            car.load += 1
        car.crosser, car.crossing = who, car.transfer

    def next_out(self, car: Car) -> Passenger | None:
        if car.aboard[car.shown]:
            return car.aboard[car.shown].popleft()
        for at, passenger in enumerate(car.strays):
            if passenger.goal != car.shown:
                car.aboard[passenger.goal].remove(passenger)
                return car.strays.pop(at)
        return None

    def through(self, car: Car):
        """Who was in the doorway is in the car, or out of it."""
        who, car.crosser = car.crosser, None
        if car.inward:
            car.aboard[who.goal].append(who)
            return
        car.load -= 1
        if who in car.strays:
            car.strays.remove(who)
        if who.goal == car.shown:
            who.left, who.door_leaving = self.now * ROUND, car.opened_at * ROUND
            self.carried += 1
        else:
            who.floor, who.boarded, self.let_out = car.shown, -1.0, self.let_out + 1
            self.press_again(who)

    def leave(self, car: Car):
        """The car has set off: who found no room presses again."""
        if car.load:
            car.left_loaded += 1
            car.loads += car.load
            car.greatest = max(car.greatest, car.load)
        waiting = car.waiting[car.start]
        for passenger in [it for it in waiting if it.refused]:
            waiting.remove(passenger)
            passenger.call.people.remove(passenger)
            passenger.found_full += 1
            self.press_again(passenger)

    def press_again(self, passenger: Passenger):
        passenger.call, passenger.refused = None, False
        self.pressing.append(passenger)

    def hear(self, answer: bytes):
        """Takes the lines of an answer. Those of presses come first, and the outputs last."""
        lines = answer.split(b"\n")
        pressed = iter(self.pressing)
        self.pressing = []
        for line in lines[:-2]:
            words = line.split(b" ")
            kind = words[0]
            if kind == b"press":
                self.hear_press(next(pressed), words[3])
            elif kind == b"entered":
                self.hear_entered(*map(int, words[1:]))
            elif kind == b"told":
                self.hear_told(*map(int, words[1:]))
            elif kind == b"served":
                self.hear_served(*map(int, words[1:]))
            elif kind == b"denied":
                self.denied[int(words[2])] += 1
        if lines[-2] + b"\n" != self.last:
            self.last = lines[-2] + b"\n"
            outputs = list(map(int, lines[-2].split(b" ")[1:]))
            for car, motor, door in zip(self.cars, outputs[::2], outputs[1::2]):
                car.motor, car.open = motor, door

    def hear_press(self, passenger: Passenger, reply: bytes):
        passenger.presses += 1
        calls = self.pressed[passenger.floor, passenger.goal]
        if reply == b"new":
            calls.append([passenger])
        elif reply == b"already":
            self.already += 1
            calls[-1].append(passenger)
        else:
            raise Trouble(5, f"serve refused a press from floor {passenger.floor} to floor {passenger.goal}")

    def hear_entered(self, ticket: int, _slot: int, start: int, goal: int):
        call = Call(ticket, start, goal, self.now, self.pressed[start, goal].popleft())
        self.calls.append(call)
        for passenger in call.people:
            passenger.call = call

    def hear_told(self, ticket: int, number: int):
        call, car = self.calls[self.first + ticket - 1], self.cars[number - 1]
        call.told, call.car = self.now, number
        car.unboarded[call.start].append(call)
        car.waiting[call.start].extend(call.people)

    def hear_served(self, ticket: int, number: int):
        call, car = self.calls[self.first + ticket - 1], self.cars[number - 1]
        call.served = self.now
        self.given_back += not call.boarded
        call.at_goal = car.shown == call.goal and not car.direction and car.door == car.wide
        if not call.boarded:
            car.unboarded[call.start].remove(call)
        for passenger in call.people:
            if passenger.call is not call or passenger.left >= 0:
                continue
            if passenger.boarded < 0:
                car.waiting[call.start].remove(passenger)
                self.press_again(passenger)
            elif not call.at_goal:
                car.strays.append(passenger)

    def aboard(self) -> int:
        return sum(car.load for car in self.cars)

    def waiting(self) -> int:
        """Who have arrived and are in no car, counted where they are: at a panel, without a car, or at the landing for
        one.
        """
        at_panels = len(self.pressing) + sum(len(people) for calls in self.pressed.values() for people in calls)
        without_car = sum(passenger.call is call for call in self.calls if not call.told for passenger in call.people)
        return at_panels + without_car + sum(len(people) for car in self.cars for people in car.waiting.values())

    def faults(self) -> list[str]:
        return [fault for car in self.cars for fault in car.faults]

    def goes_on(self) -> bool:
        """Whether somebody isn't carried yet; after faults, also whether a call still holds a slot."""
        return self.carried < self.arrived or (self.restart is not None and self.open_calls() > 0)

    def play(self, length: Length, pace: float | None = None):
        """Rounds until all are carried, or the drain ends; `pace` is how many times the wall clock. Then the child is
        told the end, or is gone.
        """
        begin = time.monotonic()
        try:
            while self.now < length.rounds() or (self.now < length.most_rounds() and self.goes_on()):
                self.step()
                if pace:
                    time.sleep(max(0.0, begin + self.now * ROUND / pace - time.monotonic()))
        except KeyboardInterrupt:
            pass  # an end like any other
        except BaseException:
            self.controller.kill()
            raise
        self.controller.stop()


def simulated(
    scene: Scene,
    cars: int,
    demand: float,
    seed: int,
    start: Callable[[], Controller],
    pace: float | None = None,
    failing: list[Failure] | None = None,
    kind: type[Building] = Building,
) -> Building:
    """A building after its whole run, with what fails in it. `start` starts the child, once all else is right."""
    times, people = Timetable(scene.plant), arrivals(
        scene.mix, scene.population, demand, scene.length.arrivals * MINUTE, seed
    )
    building = kind(scene.plant, times, cars, people, start())
    if failing is not None:
        building.failures, building.restart = list(failing), start
    building.play(scene.length, pace)
    return building
