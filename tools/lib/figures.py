"""What a run of a building says: figures of its passengers and calls, as text and as CSV."""
import csv
from dataclasses import dataclass
from math import ceil
from typing import TextIO

from lib.building import MINUTE, ROUND, Building, Length
from lib.traffic import FIVE_MINUTES


@dataclass(frozen=True)
class Spread:
    """Of some times in seconds; all 0 where there are none."""

    mean: float
    median: float  # half of them are at most this
    most: float  # 95 of 100 are at most this
    greatest: float
    count: int


def share(ordered: list[float], part: float) -> float:
    """The least value that is not below this part of all of them."""
    return ordered[max(0, ceil(part * len(ordered)) - 1)]


def spread(times: list[float]) -> Spread:
    if not times:
        return Spread(0, 0, 0, 0, 0)
    ordered = sorted(times)
    return Spread(sum(ordered) / len(ordered), share(ordered, 0.5), share(ordered, 0.95), ordered[-1], len(ordered))


@dataclass(frozen=True)
class Figures:
    counted: int  # passengers who arrived behind the warm-up
    waiting_still: int  # of those counted who have not boarded
    waiting: Spread  # arrival to boarding, or to the end of the run
    journey: Spread  # arrival to leaving, or to the end of the run
    waiting_to_door: Spread  # arrival until the door begins to open, of those who boarded
    journey_to_door: Spread  # the same of those who left
    # Of those who left, from the time when the door begins to open for their boarding until it does for their leaving.
    transit: Spread
    waiting_first: float  # s, mean waiting of who arrived in the first third of the time that counts
    waiting_last: float  # s, the same of the last third
    offered: float  # persons who arrived in five minutes
    handled: float  # persons carried in five minutes
    mean_load: float  # persons, of the starts with somebody aboard
    greatest_load: int
    pressed_again: int  # passengers
    found_full: int  # passengers


def figures(building: Building, length: Length) -> Figures:
    """Of the passengers who arrived behind the warm-up; what was handled, from there to the last arrivals."""
    begin, stop = length.warm_up * MINUTE, building.now * ROUND
    end = min(length.arrivals * MINUTE, stop)
    people = [it for it in building.people[: building.arrived] if it.arrived > begin]
    boarded, left = [it for it in people if it.boarded >= 0], [it for it in people if it.left >= 0]
    carried = sum(begin < it.left <= end for it in building.people)
    third = (end - begin) / 3
    waited = [(it.arrived, (it.boarded if it.boarded >= 0 else stop) - it.arrived) for it in people]
    starts = sum(car.left_loaded for car in building.cars)
    return Figures(
        len(people),
        len(people) - len(boarded),
        spread([(it.boarded if it.boarded >= 0 else stop) - it.arrived for it in people]),
        spread([(it.left if it.left >= 0 else stop) - it.arrived for it in people]),
        spread([max(0.0, it.door_boarding - it.arrived) for it in boarded]),
        spread([max(0.0, it.door_leaving - it.arrived) for it in left]),
        spread([it.door_leaving - it.door_boarding for it in left]),
        spread([time for arrived, time in waited if arrived <= begin + third]).mean,
        spread([time for arrived, time in waited if arrived > end - third]).mean,
        len(people) * FIVE_MINUTES / (end - begin) if end > begin else 0.0,
        carried * FIVE_MINUTES / (end - begin) if end > begin else 0.0,
        sum(car.loads for car in building.cars) / starts if starts else 0.0,
        max(car.greatest for car in building.cars),
        sum(it.presses > 1 for it in people),
        sum(it.found_full > 0 for it in people),
    )


def shown_spread(it: Spread) -> str:
    if not it.count:
        return "none"
    return f"mean {it.mean:.1f}, median {it.median:.1f}, 95 of 100 {it.most:.1f}, greatest {it.greatest:.1f}"


def shown_load(of: Figures) -> str:
    return f"mean {of.mean_load:.1f}, greatest {of.greatest_load}" if of.greatest_load else "none"


def shown_calls(building: Building) -> str:
    calls = building.calls
    told, boarded, served = (sum(getattr(it, what) > 0 for it in calls) for what in ("told", "boarded", "served"))
    right = sum(it.at_goal for it in calls)
    return (
        f"entered {len(calls)}, told {told}, boarded {boarded}, served {served}, "
        f"{right} of them at the destination with an open door"
    )


def report(building: Building, of: Figures, population: int) -> str:
    denials = ", ".join(f"rule {rule}: {count}" for rule, count in enumerate(building.denied) if count) or "none"
    lines = [
        (
            f"passengers: arrived {building.arrived}, carried {building.carried}, aboard {building.aboard()}, "
            f"waiting {building.waiting()}"
        ),
        (
            f"counted, of those who arrived behind the warm-up: {of.counted}, "
            f"{of.waiting_still} of them still waiting at the end"
        ),
        f"waiting, arrival to boarding (s): {shown_spread(of.waiting)}",
        f"time to destination, arrival to leaving (s): {shown_spread(of.journey)}",
        f"waiting, until the door begins to open (s): {shown_spread(of.waiting_to_door)}",
        f"time to destination, until the door begins to open (s): {shown_spread(of.journey_to_door)}",
        f"transit, from that door to that door (s): {shown_spread(of.transit)}",
        f"carried in five minutes: {of.handled:.1f} persons, {100 * of.handled / population:.1f} % of the population",
        f"load on leaving a landing (persons): {shown_load(of)}, capacity {building.plant.capacity}",
        (
            f"passengers who pressed again: {of.pressed_again}; who found a car full: {of.found_full}; "
            f"times let out on the way: {building.let_out}"
        ),
        f"calls: {shown_calls(building)}; presses of a call on the desk: {building.already}",
        f"denied: {denials}",
        f"rounds: {building.now}, {building.now * ROUND:.1f} s; faults of the plant: {len(building.faults())}",
    ]
    return "".join(f"{line}\n" for line in lines)


def seconds(time: float) -> str:
    return f"{time:.1f}" if time >= 0 else ""


def write_passengers(building: Building, to: TextIO):
    """A line a passenger; times in seconds, empty where it didn't happen. Of several tickets the last one."""
    lines = csv.writer(to, lineterminator="\n")
    lines.writerow(
        (
            "passenger",
            "arrival",
            "floor",
            "destination",
            "ticket",
            "car",
            "boarding",
            "leaving",
            "presses",
            "found_full",
        )
    )
    for it in building.people[: building.arrived]:
        came, went = (it.number, f"{it.arrived:.2f}", it.start, it.goal), (seconds(it.boarded), seconds(it.left))
        lines.writerow((*came, it.call.ticket if it.call else "", it.car or "", *went, it.presses, it.found_full))


def write_calls(building: Building, to: TextIO):
    """A line a ticket; times are rounds, empty where it didn't happen."""
    lines = csv.writer(to, lineterminator="\n")
    lines.writerow(("ticket", "from", "to", "entered", "told", "car", "boarded", "served", "at_destination"))
    for it in building.calls:
        happened = [number or "" for number in (it.told, it.car, it.boarded, it.served)]
        lines.writerow(
            (it.ticket, it.start, it.goal, it.entered, *happened, ("yes" if it.at_goal else "no") if it.served else "")
        )
