"""How long a lift's drive takes from one floor to another, and up to when it can still stop there.

A flight starts and ends at rest. Its jerk, acceleration and speed keep their limits, and it is the shortest such
flight: the jerk is always at its limit or 0. The formulas are the well-known ones of ideal lift kinematics, as CIBSE
Guide D gives them.
"""
from dataclasses import dataclass
from math import cbrt, sqrt


@dataclass(frozen=True)
class Drive:
    speed: float  # m/s, rated
    acceleration: float  # m/s², up and down alike
    jerk: float  # m/s³


@dataclass(frozen=True)
class Flight:
    duration: float  # s from rest to rest
    last_stop: float  # s from the start: so long it is the beginning of every longer flight too


def reached_acceleration(drive: Drive) -> float:
    """m/s²: a slow drive is at its rated speed before its acceleration is at its limit."""
    return min(drive.acceleration, sqrt(drive.speed * drive.jerk))


def flight(drive: Drive, distance: float) -> Flight:
    """The flight over so many metres. It is one of three kinds, by what of the limits it reaches."""
    speed, jerk, acceleration = drive.speed, drive.jerk, reached_acceleration(drive)
    rise = acceleration / jerk  # s until the acceleration is at its limit
    to_speed = speed / acceleration + rise  # s until the speed is at its limit
    if distance >= speed * to_speed:
        return Flight(distance / speed + to_speed, distance / speed)
    if distance >= 2 * acceleration * rise * rise:
        root = sqrt(4 * distance / acceleration + rise * rise)
        return Flight(rise + root, (root - rise) / 2)
    duration = cbrt(32 * distance / jerk)
    return Flight(duration, duration / 4)
