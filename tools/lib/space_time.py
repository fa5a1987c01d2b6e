"""A run of a building as a picture, for `tools/building --plot`: where each car was, who waited where, and how long.

The picture is SVG: time to the right, floors upwards. A car's line is straight from its departure to its arrival, and
thick where its door isn't shut. The grey steps on a floor's line are the passengers who wait there. Below, a dot is a
passenger: the time of the arrival, and the waiting until the boarding.
"""
from html import escape
from typing import Iterator

from lib.building import MINUTE, ROUND, Building, Passenger
from lib.chart import ticks
from lib.traffic import FIVE_MINUTES

LEFT, RIGHT, TOP, BETWEEN, BOTTOM = 64, 24, 76, 56, 52  # px beside and between the two parts
FLOOR, WAITS = 44, 200  # px of a floor, and of the lower part
MINUTE_WIDTH, LEAST_WIDTH, MOST_WIDTH = 90, 600, 12_000  # px
QUEUE = 0.8  # of a floor's height: so high is the longest queue
# Okabe and Ito's, which the colour-blind can tell apart too.
COLOURS = ["#0072b2", "#d55e00", "#009e73", "#cc79a7", "#e69f00", "#56b4e9", "#000000", "#a08000"]
GREY, LINE, TEXT = "#bbbbbb", "#dddddd", "#555555"


class Recorded(Building):
    """A building that keeps when and where each car set off, arrived, opened and shut."""

    def __init__(self, *words):
        super().__init__(*words)
        self.ways: list[list[tuple[int, int]]] = [
            [(0, car.shown)] for car in self.cars
        ]  # rounds and floors; between them straight lines
        self.doors: list[list[tuple[int, int, int]]] = [[] for _ in self.cars]  # rounds and the floor
        self.ran = [False for _ in self.cars]
        self.opened = [0 for _ in self.cars]

    def step(self):
        super().step()
        for at, car in enumerate(self.cars):
            runs = car.direction != 0
            if runs != self.ran[at]:
                self.ways[at].append((self.now - 1, car.start) if runs else (self.now, car.shown))
            if car.door and not self.opened[at]:
                self.opened[at] = self.now
            elif not car.door and self.opened[at]:
                self.doors[at].append((self.opened[at], self.now, car.shown))
                self.opened[at] = 0
            self.ran[at] = runs

    def finish(self):
        """What is under way at the end, up to there."""
        for at, car in enumerate(self.cars):
            if car.direction:
                self.ways[at].append((self.now, car.shown))
            else:
                self.ways[at].append((self.now, self.ways[at][-1][1]))
            if self.opened[at]:
                self.doors[at].append((self.opened[at], self.now, car.shown))


def waited(passenger: Passenger, end: float) -> float:
    return (passenger.boarded if passenger.boarded >= 0 else end) - passenger.arrived


def queues(building: Building, floor: int, end: float) -> list[tuple[float, int]]:
    """When the number of those who wait at a landing changes, and what it is then.

    Who was let out on the way isn't counted there.
    """
    changes = []
    for it in building.people[: building.arrived]:
        if it.start == floor:
            changes += [(it.arrived, 1), (it.arrived + waited(it, end), -1)]
    made, count = [], 0
    for time, change in sorted(changes):
        count += change
        made.append((time, count))
    return made


class Picture:
    def __init__(self, building: Recorded, title: str):
        self.building, self.title, self.end = building, title, building.now * ROUND
        self.floors = building.cars[0].top
        self.width = min(MOST_WIDTH, max(LEAST_WIDTH, round(self.end / MINUTE * MINUTE_WIDTH)))
        self.low = TOP + FLOOR * self.floors  # px: the bottom of the upper part
        self.base = self.low + BETWEEN + WAITS  # and of the lower
        self.people = building.people[: building.arrived]
        self.waits = ticks(max([waited(it, self.end) for it in self.people], default=1.0))

    def x(self, time: float) -> float:
        return LEFT + self.width * time / max(self.end, ROUND)

    def y(self, floor: int) -> float:
        return self.low - FLOOR * (floor - 1) - 8

    def wait_y(self, wait: float) -> float:
        return self.base - WAITS * wait / self.waits[-1]

    def axes(self) -> Iterator[str]:
        right = LEFT + self.width
        for floor in range(1, self.floors + 1):
            yield f'<path d="M{LEFT} {self.y(floor):.1f}H{right}" stroke="{LINE}"/>'
            yield f'<text x="{LEFT - 8}" y="{self.y(floor) + 4:.1f}" text-anchor="end">{floor}</text>'
        for wait in self.waits:
            yield f'<path d="M{LEFT} {self.wait_y(wait):.1f}H{right}" stroke="{LINE}"/>'
            yield f'<text x="{LEFT - 8}" y="{self.wait_y(wait) + 4:.1f}" text-anchor="end">{wait:g}</text>'
        for minute in range(int(self.end // MINUTE) + 1):
            x = self.x(minute * MINUTE)
            yield f'<path d="M{x:.1f} {TOP - 8}V{self.low}M{x:.1f} {self.low + BETWEEN}V{self.base}" stroke="{LINE}"/>'
            yield f'<text x="{x:.1f}" y="{self.low + 18}" text-anchor="middle">{minute}</text>'
            yield f'<text x="{x:.1f}" y="{self.base + 18}" text-anchor="middle">{minute}</text>'
        for name, middle in (("Floor", (TOP + self.low) / 2), ("Waiting (s)", self.base - WAITS / 2)):
            turned = f'text-anchor="middle" transform="rotate(-90 18 {middle:.0f})"'
            yield f'<text x="18" y="{middle:.0f}" {turned}>{name}</text>'
        yield f'<text x="{LEFT + self.width / 2:.0f}" y="{self.base + 38}" text-anchor="middle">Time (min)</text>'

    def landings(self) -> Iterator[str]:
        of = {floor: queues(self.building, floor, self.end) for floor in range(1, self.floors + 1)}
        longest = max((count for it in of.values() for _, count in it), default=0)
        for floor, changes in of.items():
            if changes:
                steps = "".join(
                    f"H{self.x(time):.1f}V{self.y(floor) - QUEUE * FLOOR * count / longest:.1f}"
                    for time, count in changes
                )
                outline = f"M{LEFT} {self.y(floor):.1f}{steps}V{self.y(floor):.1f}z"
                yield f'<path class="queue" d="{outline}" fill="{GREY}" fill-opacity="0.5"/>'
        said = f"The longest queue, {longest} passengers, is drawn {QUEUE:g} of a floor high."
        yield f'<text x="{LEFT}" y="60" fill="{TEXT}">{said}</text>'

    def cars(self) -> Iterator[str]:
        for number, (way, doors) in enumerate(zip(self.building.ways, self.building.doors), 1):
            colour = COLOURS[(number - 1) % len(COLOURS)]
            shift = 2 * (number - (len(self.building.ways) + 1) / 2)  # px, so that cars at one floor can be told apart
            points = " ".join(f"{self.x(now * ROUND):.1f},{self.y(floor) + shift:.1f}" for now, floor in way)
            yield f'<polyline class="car" points="{points}" fill="none" stroke="{colour}" stroke-width="1.2"/>'
            opened = "".join(
                f"M{self.x(first * ROUND):.1f} {self.y(floor) + shift:.1f}H{self.x(last * ROUND):.1f}"
                for first, last, floor in doors
            )
            yield f'<path d="{opened or "M0 0"}" stroke="{colour}" stroke-width="4"/>'
            yield f'<text x="{LEFT + 130 + 70 * number}" y="42" fill="{colour}">car {number}</text>'

    def dots(self) -> Iterator[str]:
        for it in self.people:
            fill = "#333333" if it.boarded >= 0 else "#d55e00"
            x, y = self.x(it.arrived), self.wait_y(waited(it, self.end))
            yield f'<circle cx="{x:.1f}" cy="{y:.1f}" r="2" fill="{fill}"/>'
        means = list(self.means())
        yield f'<polyline class="mean" points="{" ".join(means)}" fill="none" stroke="#0072b2" stroke-width="2"/>'
        said = "A dot for each passenger; the line is the mean of five minutes"
        yield f'<text x="{LEFT}" y="{self.low + BETWEEN - 10}" fill="{TEXT}">{said}</text>'

    def means(self) -> Iterator[str]:
        """Of those who arrived in the five minutes around each half minute."""
        half, step = FIVE_MINUTES / 2, MINUTE / 2
        for at in range(int(self.end / step) + 1):
            waits = [waited(it, self.end) for it in self.people if abs(it.arrived - at * step) <= half]
            if waits:
                yield f"{self.x(at * step):.1f},{self.wait_y(sum(waits) / len(waits)):.1f}"

    def text(self) -> str:
        width, height = LEFT + self.width + RIGHT, self.base + BOTTOM
        made = [
            f'<svg xmlns="http://www.w3.org/2000/svg" viewBox="0 0 {width} {height}" width="{width}" height="{height}"',
            ' font-family="sans-serif" font-size="12" fill="#222222">',
            f"<title>{escape(self.title)}</title>",
            f'<rect width="{width}" height="{height}" fill="#ffffff"/>',
            f'<text x="{LEFT}" y="24" font-size="16" font-weight="bold">{escape(self.title)}</text>',
            f'<text x="{LEFT}" y="42" fill="{TEXT}">Thick: the door isn\'t shut.</text>',
            *self.axes(), *self.landings(), *self.cars(), *self.dots(),
            "</svg>",
        ]  # fmt: skip
        return "".join(f"{piece}\n" for piece in made)


def space_time(building: Recorded, title: str) -> str:
    building.finish()
    return Picture(building, title).text()
