"""A line chart as SVG: points joined by lines, each with a bar for its spread."""
from dataclasses import dataclass
from html import escape
from math import ceil

WIDTH, HEIGHT = 860, 480  # px of the picture
LEFT, TOP, BOTTOM, LEGEND = 70, 56, 64, 200  # px beside the axes
MARK = 4  # px
MOST_TICKS = 8
# Colours that the colour-blind can tell apart too (Okabe and Ito's), and a mark of its own for each.
COLOURS = ["#0072b2", "#d55e00", "#009e73", "#cc79a7", "#555555", "#e69f00"]
MARKS = ["circle", "square", "triangle", "diamond", "cross", "plus"]


@dataclass(frozen=True)
class Point:
    x: float
    y: float
    low: float
    high: float


@dataclass(frozen=True)
class Line:
    name: str
    points: list[Point]


@dataclass(frozen=True)
class Chart:
    title: str
    note: str  # below the title
    x_name: str  # with its unit
    y_name: str
    lines: list[Line]
    greatest: float  # of y that is shown; a line leaves the picture above it


def ticks(greatest: float) -> list[float]:
    """Round numbers from 0 to the first one that isn't below the greatest."""
    step = next(
        it
        for power in range(-2, 8)
        for it in (10.0**power, 2 * 10.0**power, 5 * 10.0**power)
        if it * MOST_TICKS >= greatest
    )
    return [step * at for at in range(ceil(greatest / step) + 1)]


def mark(kind: str, x: float, y: float, colour: str) -> str:
    size = MARK
    if kind == "circle":
        return f'<circle cx="{x:.1f}" cy="{y:.1f}" r="{size}" fill="{colour}"/>'
    if kind == "square":
        return f'<rect x="{x - size:.1f}" y="{y - size:.1f}" width="{2 * size}" height="{2 * size}" fill="{colour}"/>'
    outline = {
        "triangle": f"M{x:.1f} {y - size - 1:.1f}l{size + 1} {2 * size + 1}h-{2 * size + 2}z",
        "diamond": f"M{x:.1f} {y - size - 1:.1f}l{size + 1} {size + 1}l-{size + 1} {size + 1}l-{size + 1} -{size + 1}z",
        "cross": f"M{x - size:.1f} {y - size:.1f}l{2 * size} {2 * size}m0 -{2 * size}l-{2 * size} {2 * size}",
        "plus": f"M{x - size - 1:.1f} {y:.1f}h{2 * size + 2}M{x:.1f} {y - size - 1:.1f}v{2 * size + 2}",
    }[kind]
    return f'<path d="{outline}" fill="{colour}" stroke="{colour}" stroke-width="2"/>'


class Picture:
    def __init__(self, chart: Chart):
        self.chart = chart
        self.xs = ticks(max(it.x for line in chart.lines for it in line.points))
        self.ys = ticks(chart.greatest)
        self.right, self.bottom = WIDTH - LEGEND, HEIGHT - BOTTOM

    def x(self, value: float) -> float:
        return LEFT + (self.right - LEFT) * value / self.xs[-1]

    def y(self, value: float) -> float:
        return self.bottom - (self.bottom - TOP) * value / self.ys[-1]

    def axes(self) -> list[str]:
        made = []
        for value in self.ys:
            made.append(f'<path d="M{LEFT} {self.y(value):.1f}H{self.right}" stroke="#dddddd"/>')
            made.append(f'<text x="{LEFT - 8}" y="{self.y(value) + 4:.1f}" text-anchor="end">{value:g}</text>')
        for value in self.xs:
            made.append(f'<path d="M{self.x(value):.1f} {self.bottom}v5" stroke="#333333"/>')
            made.append(f'<text x="{self.x(value):.1f}" y="{self.bottom + 20}" text-anchor="middle">{value:g}</text>')
        made.append(f'<path d="M{LEFT} {TOP}V{self.bottom}H{self.right}" fill="none" stroke="#333333"/>')
        middle = (TOP + self.bottom) / 2
        made.append(
            f'<text x="{(LEFT + self.right) / 2:.0f}" y="{HEIGHT - 18}" '
            f'text-anchor="middle">{escape(self.chart.x_name)}</text>'
        )
        made.append(
            f'<text x="20" y="{middle:.0f}" text-anchor="middle" transform="rotate(-90 20 '
            f'{middle:.0f})">{escape(self.chart.y_name)}</text>'
        )
        return made

    def line(self, line: Line, colour: str, kind: str) -> list[str]:
        places = " ".join(f"{self.x(it.x):.1f},{self.y(it.y):.1f}" for it in line.points)
        made = [f'<polyline points="{places}" fill="none" stroke="{colour}" stroke-width="2"/>']
        for it in line.points:
            x = self.x(it.x)
            made.append(
                f'<path d="M{x:.1f} {self.y(it.low):.1f}V{self.y(it.high):.1f}" stroke="{colour}" '
                'stroke-opacity="0.6"/>'
            )
            made.append(
                f"<g><title>{escape(line.name)}: {it.x:g}, {it.y:.1f} ({it.low:.1f} to "
                f"{it.high:.1f})</title>{mark(kind, x, self.y(it.y), colour)}</g>"
            )
        return made

    def legend(self, at: int, line: Line, colour: str, kind: str) -> list[str]:
        x, y = self.right + 16, TOP + 14 + 24 * at
        named = f'<text x="{x + 34}" y="{y + 4}">{escape(line.name)}</text>'
        return [f'<path d="M{x} {y}h26" stroke="{colour}" stroke-width="2"/>', mark(kind, x + 13, y, colour), named]

    def text(self) -> str:
        chart = self.chart
        styled = [(line, COLOURS[at % len(COLOURS)], MARKS[at % len(MARKS)]) for at, line in enumerate(chart.lines)]
        made = [
            f'<svg xmlns="http://www.w3.org/2000/svg" viewBox="0 0 {WIDTH} {HEIGHT}" width="{WIDTH}" height="{HEIGHT}"',
            ' font-family="sans-serif" font-size="13" fill="#222222">',
            f"<title>{escape(chart.title)}</title>",
            f'<rect width="{WIDTH}" height="{HEIGHT}" fill="#ffffff"/>',
            '<clipPath id="inside">',
            (
                f'<rect x="{LEFT}" y="{TOP - MARK}" width="{self.right - LEFT + MARK}" '
                f'height="{self.bottom - TOP + 2 * MARK}"/>'
            ),
            "</clipPath>",
            f'<text x="{LEFT}" y="24" font-size="17" font-weight="bold">{escape(chart.title)}</text>',
            f'<text x="{LEFT}" y="43" fill="#555555">{escape(chart.note)}</text>',
            *self.axes(),
            '<g clip-path="url(#inside)">',
            *(piece for line, colour, kind in styled for piece in self.line(line, colour, kind)),
            "</g>",
            *(piece for at, (line, colour, kind) in enumerate(styled) for piece in self.legend(at, line, colour, kind)),
            "</svg>",
        ]
        return "".join(f"{piece}\n" for piece in made)


def svg(chart: Chart) -> str:
    return Picture(chart).text()
