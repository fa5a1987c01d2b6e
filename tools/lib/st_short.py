"""Makes the steps of a body fewer, for tools/st, without a change of what they do or of which ranges they narrow."""
import functools, re
from collections import Counter

from lib.st_code import Label, Step

CONDITIONAL = {"JMPC": "JMPCN", "JMPCN": "JMPC"}
RETURNS = {"JMP": "RET", "JMPC": "RETC", "JMPCN": "RETCN"}
KEEPS = {"JMPC", "JMPCN", "RETC", "RETCN"}  # the current result stays behind them


def shortened(steps: list[Step], own: set[str]) -> list[Step]:
    """The same in fewer steps. Of its own variables a unit keeps a load of each that it reads at all, or `check --warn`
    would say that it never does.
    """
    while True:
        before = [(it, it.text, it.goes_to) for it in steps]
        for one in (
            threaded,
            turned,
            without_next,
            without_unreached,
            without_last_return,
            without_labels,
            with_one_label,
            functools.partial(without_loads, own=own),
        ):
            steps = one(steps)
        if before == [(it, it.text, it.goes_to) for it in steps]:
            return steps


class Around:
    """What follows each place of a body: the next instruction, and the labels on the way to it."""

    def __init__(self, steps: list[Step]):
        self.next: list[int | None] = [None] * (len(steps) + 1)  # from this place on
        self.labels: list[frozenset[int]] = [frozenset()] * (len(steps) + 1)
        self.place: dict[int, int] = {}
        for at in range(len(steps) - 1, -1, -1):
            it = steps[at]
            self.next[at] = at if it.operator else self.next[at + 1]
            self.labels[at] = (
                frozenset() if it.operator else self.labels[at + 1] | ({id(it.label)} if it.label else set())
            )
            if it.label is not None:
                self.place[id(it.label)] = at

    def target(self, label: Label) -> int | None:
        """The instruction at a label; none at the end of the body."""
        return self.next[self.place[id(label)]]


def threaded(steps: list[Step]) -> list[Step]:
    """A jump to a jump goes where that one goes, and one to a return is one; but for a test that narrows, which stays a
    jump.
    """
    around = Around(steps)
    for it in reversed(steps):
        if it.goes_to is None:
            continue
        target = around.target(it.goes_to)
        if target is not None and steps[target].operator == "JMP":
            it.goes_to = steps[target].goes_to
        elif (target is None or steps[target].operator == "RET") and not (it.is_pinned and it.operator != "JMP"):
            it.operator, it.goes_to = RETURNS[it.operator], None
    return steps


def turned(steps: list[Step]) -> list[Step]:
    """A conditional jump over a jump or a return is that one, on the other condition."""
    around, gone = Around(steps), set()
    for at, it in enumerate(steps):
        other = around.next[at + 1]
        if (
            it.operator not in CONDITIONAL
            or other is None
            or around.labels[at + 1]
            or id(it.goes_to) not in around.labels[other + 1]
        ):
            continue
        over = steps[other]
        if over.operator == "JMP":
            it.operator, it.goes_to = CONDITIONAL[it.operator], over.goes_to
        elif over.operator == "RET" and not it.is_pinned:
            it.operator, it.goes_to = RETURNS[CONDITIONAL[it.operator]], None
        else:
            continue
        it.behind += over.behind
        gone.add(other)
    return [it for at, it in enumerate(steps) if at not in gone]


def without_next(steps: list[Step]) -> list[Step]:
    """A jump to what follows does nothing."""
    around = Around(steps)
    return [it for at, it in enumerate(steps) if it.goes_to is None or id(it.goes_to) not in around.labels[at + 1]]


def without_unreached(steps: list[Step]) -> list[Step]:
    made, is_reached = [], True
    for it in steps:
        is_reached = is_reached or it.label is not None
        if is_reached or not it.operator:
            made.append(it)
        if it.operator in ("JMP", "RET"):
            is_reached = False
    return made


def without_last_return(steps: list[Step]) -> list[Step]:
    """Behind the last instruction stands a return anyway."""
    last = next((it for it in reversed(steps) if it.operator or it.label), None)
    return (
        [it for it in steps if it is not last]
        if last is not None and last.operator in ("RET", "RETC", "RETCN")
        else steps
    )


def with_one_label(steps: list[Step]) -> list[Step]:
    """Of several labels at one place the first is kept."""
    first, made, instead = None, [], {}
    for it in steps:
        if it.label is None:
            first = None if it.operator else first
        elif first is None:
            first = it.label
        else:
            instead[id(it.label)] = first
            continue
        made.append(it)
    for it in made:
        it.goes_to = instead.get(id(it.goes_to), it.goes_to)
    return made


def without_labels(steps: list[Step]) -> list[Step]:
    used = {id(it.goes_to) for it in steps if it.goes_to}
    return [it for it in steps if it.label is None or id(it.label) in used]


def base(operand: str) -> str:
    return operand.split("[")[0].split(".")[0].upper()


def reads(steps: list[Step]) -> Counter:
    """How often each name is read."""
    found: Counter = Counter()
    for it in steps:
        words = re.findall(r"[A-Z_][A-Z_0-9]*", it.operand.upper())
        found.update(words[1:] if it.operator in ("ST", "STN", "S", "R") else words)
    return found


def without_loads(steps: list[Step], own: set[str]) -> list[Step]:
    """A load of what is the current result anyway is left out, but for that of a test that narrows, and the last that
    reads a variable of the unit's own.
    """
    made: list[Step] = []
    same: set[str] = set()  # the operands whose value is the current result
    times = reads(steps)
    for it in steps:
        operand = it.operand.upper()
        if it.operator == "LD" and not it.is_pinned and operand in same and (times[operand] != 1 or operand not in own):
            times[operand] -= 1
            made += [Step("", comment=comment) for comment in it.behind]
            continue
        made.append(it)
        same = still_same(it, same)
    return made


def still_same(step: Step, same: set[str]) -> set[str]:
    """The operands whose value is the current result behind a step."""
    operand = step.operand.upper()
    if not step.operator and step.label is None or step.operator in KEEPS:
        return same
    if step.operator == "LD":
        return {operand}
    if step.operator in ("ST", "STN", "S", "R"):
        kept = {it for it in same if base(operand) not in (base(it), it.partition("[")[2].rstrip("]"))}
        return kept | {operand} if step.operator == "ST" and "." not in operand else kept
    return set()
