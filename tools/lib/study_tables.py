"""The tables of docs/STUDY.md, of the lines of study.csv. For tools/study."""
from dataclasses import dataclass
from statistics import mean, stdev
from typing import NamedTuple

TABLE, DEMAND = "table", "demand"  # the two kinds of runs
CARRIED = 0.95  # of what is offered: a group that carries less can't carry the demand
GROWS = (
    1.5,
    10.0,
)  # by this factor and by so many seconds the last third of the passengers waits longer than the first: waiting grows
UNFINISHED = " *"
# Student's t for a two-sided interval of 95 %, by the number of pairs.
STUDENT = {
    2: 12.706,
    3: 4.303,
    4: 3.182,
    5: 2.776,
    6: 2.571,
    7: 2.447,
    8: 2.365,
    9: 2.306,
    10: 2.262,
    15: 2.145,
    20: 2.093,
    30: 2.045,
}


class Row(NamedTuple):
    """A run, as it is in study.csv; times in seconds."""

    run: str  # TABLE or DEMAND
    building: str
    traffic: str
    demand: float
    dispatcher: str
    seed: int
    counted: int
    waiting_still: int
    waiting: float
    waiting_95: float
    waiting_greatest: float
    journey: float
    journey_95: float
    journey_greatest: float
    door_waiting: float
    door_waiting_95: float
    door_journey: float
    door_journey_95: float
    transit: float
    transit_95: float
    waiting_first: float
    waiting_last: float
    offered: float  # persons in five minutes
    handled: float  # persons in five minutes
    mean_load: float
    greatest_load: int
    pressed_again: int
    found_full: int


@dataclass(frozen=True)
class Shown:
    """What the tables are of."""

    people: dict[str, int]  # of each building
    titles: dict[str, str]  # of each building
    named: dict[str, float]  # the kinds of traffic, each with its demand
    charted: str  # the traffic of the runs over demand


def of_run(rows: list[Row], **wanted) -> list[Row]:
    return [it for it in rows if all(getattr(it, name) == value for name, value in wanted.items())]


def mean_of(rows: list[Row], what: str) -> float:
    return mean(getattr(it, what) for it in rows)


def is_carried(rows: list[Row]) -> bool:
    """Whether the group carried what was offered to it, in all these runs together."""
    factor, seconds = GROWS
    first, last = mean_of(rows, "waiting_first"), mean_of(rows, "waiting_last")
    return mean_of(rows, "handled") >= CARRIED * mean_of(rows, "offered") and not (
        last > first * factor and last > first + seconds
    )


def cell(rows: list[Row], what: str) -> str:
    """The mean of the seeds, and of the time that 95 of 100 have at most."""
    return f"{mean_of(rows, what):.1f} ({mean_of(rows, f'{what}_95'):.0f})" if rows else ""


def table(rows: list[Row]) -> str:
    """Of one building and one kind of traffic: a line a dispatcher."""
    heads = "waiting", "time to destination", "to the door: waiting", "to the door: time to destination", "transit"
    lines = [f"| dispatcher | {' | '.join(heads)} |", "|---" * (1 + len(heads)) + "|"]
    for who in dict.fromkeys(it.dispatcher for it in rows):
        own = of_run(rows, dispatcher=who)
        cells = [cell(own, what) for what in ("waiting", "journey", "door_waiting", "door_journey", "transit")]
        lines.append(f"| {who}{'' if is_carried(own) else UNFINISHED} | {' | '.join(cells)} |")
    return "\n".join(lines) + "\n"


def interval(differences: list[float]) -> str:
    """Their mean, ± half of its interval of 95 %."""
    if len(differences) < 2:
        return f"{mean(differences):+.1f}"
    student = STUDENT[max(it for it in STUDENT if it <= len(differences))]
    return f"{mean(differences):+.1f} ± {student * stdev(differences) / len(differences) ** 0.5:.1f}"


def paired(rows: list[Row], one: str, other: str, what: str) -> str:
    """By how much the first has more than the second, seed by seed."""
    of = [{it.seed: getattr(it, what) for it in of_run(rows, dispatcher=who)} for who in (one, other)]
    seeds = of[0].keys() & of[1].keys()
    if not seeds:
        return ""
    are_carried = all(is_carried(of_run(rows, dispatcher=who)) for who in (one, other))
    return interval([of[0][seed] - of[1][seed] for seed in sorted(seeds)]) if are_carried else UNFINISHED.strip()


def differences(rows: list[Row], best: str, shown: Shown, what: str) -> str:
    """Of one building: the best dispatcher less each other one."""
    lines = [
        f"| {best} less | {' | '.join(f'{name}, {demand:g} %' for name, demand in shown.named.items())} |",
        "|---" * (1 + len(shown.named)) + "|",
    ]
    for who in dict.fromkeys(it.dispatcher for it in rows if it.dispatcher != best):
        cells = [
            paired(of_run(rows, traffic=name, demand=demand), best, who, what) for name, demand in shown.named.items()
        ]
        lines.append(f"| {who} | {' | '.join(cells)} |")
    return "\n".join(lines) + "\n"


def beside(rows: list[Row], best: str, bound: str, shown: Shown) -> str:
    """The best dispatcher beside the bound, of the seeds that both have."""
    times = "waiting", "journey"
    heads = [f"{name}: {who}" for name in ("waiting", "time to destination") for who in (bound, best, "difference")]
    lines = [f"| building | traffic | {' | '.join(heads)} |", "|---" * (2 + len(heads)) + "|"]
    for building in dict.fromkeys(it.building for it in rows):
        for traffic, demand in shown.named.items():
            own = of_run(rows, building=building, traffic=traffic, demand=demand)
            of = {who: of_run(own, dispatcher=who) for who in (bound, best)}
            if all(of.values()):
                seeds = {it.seed for it in of[bound]} & {it.seed for it in of[best]}
                own = [it for it in own if it.seed in seeds]
                cells = [cell for what in times for cell in beside_of(own, best, bound, what)]
                lines.append(f"| {building} | {traffic}, {demand:g} % | {' | '.join(cells)} |")
    return "\n".join(lines) + "\n"


def beside_of(rows: list[Row], best: str, bound: str, what: str) -> list[str]:
    return [*(cell(of_run(rows, dispatcher=who), what) for who in (bound, best)), paired(rows, best, bound, what)]


def capacity(rows: list[Row]) -> tuple[float, bool]:
    """The greatest demand, in per cent, that is carried to 95 %, between two demands of the study.

    And whether all of them are carried, so that it may be more.
    """
    below = (0.0, 1.0)
    for demand in sorted({it.demand for it in rows}):
        own = of_run(rows, demand=demand)
        part = mean_of(own, "handled") / mean_of(own, "offered")
        if part < CARRIED:
            return below[0] + (demand - below[0]) * (below[1] - CARRIED) / (below[1] - part), False
        below = demand, part
    return below[0], True


def capacities(rows: list[Row], shown: Shown) -> str:
    lines = ["| building | dispatcher | per cent of the population | persons in five minutes |", "|---|---|---|---|"]
    for building, who in dict.fromkeys((it.building, it.dispatcher) for it in rows):
        most, is_least = capacity(of_run(rows, building=building, dispatcher=who))
        mark = "at least " if is_least else ""
        lines.append(f"| {building} | {who} | {mark}{most:.1f} | {mark}{most * shown.people[building] / 100:.0f} |")
    return "\n".join(lines) + "\n"


def tables(rows: list[Row], best: str, shown: Shown) -> str:
    parts = []
    for name in dict.fromkeys(it.building for it in rows):
        own = of_run(rows, building=name, run=TABLE)
        parts.append(f"### {shown.titles[name]}\n")
        for traffic, demand in shown.named.items():
            if there := of_run(own, traffic=traffic, demand=demand):
                parts.append(f"{traffic}, {demand:g} % (s):\n\n{table(there)}")
        if any(it.dispatcher == best for it in own):
            parts.append(f"Difference of the mean waiting (s):\n\n{differences(own, best, shown, 'waiting')}")
            parts.append(
                f"Difference of the mean time to destination (s):\n\n{differences(own, best, shown, 'journey')}"
            )
    if charted := of_run(rows, run=DEMAND):
        parts.append(f"### Handling capacity: {shown.charted}\n\n{capacities(charted, shown)}")
    return "\n".join(parts)
