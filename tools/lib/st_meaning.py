"""What a text in Structured Text means: a small interpreter of its tree, for tools/st-trial.

It shares with tools/st the reader of texts (st_tree.py) and nothing else: types, constants, ranges, loops and blocks
have a meaning of their own here, from IEC 61131-3 and docs/LANGUAGE.md. Each value is checked against its type, and
each stored one against its range.
"""
from dataclasses import dataclass

from lib.st_tree import (
    WHOLE,
    Assign,
    Binary,
    Call,
    Case,
    For,
    If,
    Invoke,
    Leave,
    Literal,
    Text,
    TypeOf,
    Unary,
    Unit,
    Variable,
)

LONGEST = 2_147_483_647
SIZES = "CARS", "FLOORS", "SLOTS"


class Wrong(Exception):
    """A value outside of its type or range, or what the text doesn't say."""


class Left(Exception):
    """EXIT, CONTINUE or RETURN."""

    def __init__(self, word):
        super().__init__(word)
        self.word = word


@dataclass
class Kind:
    """A type: BOOL, TIME, an integer type with its range, an array or a block."""

    name: str
    low: int = 0
    high: int = 0
    first: object = None  # the value at which it starts
    element: "Kind | None" = None  # of an array
    bounds: tuple[int, int] = (0, 0)


class Timer:
    """TON, TOF and TP by the equations of docs/LANGUAGE.md."""

    def __init__(self, kind):
        self.kind, self.IN, self.PT, self.Q, self.ET, self.RUN, self.LAST, self.M = (
            kind,
            False,
            0,
            False,
            0,
            False,
            0,
            False,
        )

    def run(self, now):
        elapsed = min(self.PT, self.ET + max(0, now - self.LAST))
        getattr(self, self.kind)(elapsed)
        self.LAST = now

    def TON(self, elapsed):
        if not self.IN:
            self.RUN, self.Q, self.ET = False, False, 0
        elif not self.RUN:
            self.RUN, self.ET, self.Q = True, 0, 0 >= self.PT
        else:
            self.ET = elapsed
            self.Q = self.ET >= self.PT

    def TOF(self, elapsed):
        if self.IN:
            self.Q, self.ET, self.RUN = True, 0, False
        elif self.Q and not self.RUN:
            self.ET, self.RUN, self.Q = 0, True, self.PT > 0
        elif self.Q:
            self.ET = elapsed
            self.Q = self.ET < self.PT

    def TP(self, elapsed):
        if not self.RUN and self.IN and not self.M:
            self.RUN, self.ET = True, 0
        elif self.RUN:
            self.ET = elapsed
        if self.RUN and self.ET >= self.PT:
            self.RUN = False
        self.Q = self.RUN
        if not self.RUN and not self.IN:
            self.ET = 0
        self.M = self.IN


class Counter:
    """CTU, CTD and CTUD."""

    def __init__(self, kind):
        self.kind = kind
        self.CU = self.CD = self.R = self.LD = self.Q = self.QU = self.QD = self.up = self.down = False
        self.PV = self.CV = 0

    def run(self, _now):
        up, down = self.CU and not self.up, self.CD and not self.down
        if self.kind == "CTU":
            self.CV = 0 if self.R else min(32767, self.CV + up)
            self.Q = self.CV >= self.PV
        elif self.kind == "CTD":
            self.CV = self.PV if self.LD else max(-32768, self.CV - down)
            self.Q = self.CV <= 0
        else:
            self.CV = (
                0
                if self.R
                else self.PV
                if self.LD
                else max(-32768, min(32767, self.CV + (up and not down) - (down and not up)))
            )
            self.QU, self.QD = self.CV >= self.PV, self.CV <= 0
        self.up, self.down = self.CU, self.CD


class Latch:
    """SR, RS, R_TRIG and F_TRIG."""

    def __init__(self, kind):
        self.kind = kind
        self.S1 = self.R = self.Q1 = self.S = self.R1 = self.CLK = self.Q = self.M = False

    def run(self, _now):
        if self.kind == "SR":
            self.Q1 = self.S1 or (not self.R and self.Q1)
        elif self.kind == "RS":
            self.Q1 = not self.R1 and (self.S or self.Q1)
        elif self.kind == "R_TRIG":
            self.Q, self.M = self.CLK and not self.M, self.CLK
        else:
            self.Q, self.M = not self.CLK and not self.M, not self.CLK


STANDARD = {
    "SR": Latch,
    "RS": Latch,
    "R_TRIG": Latch,
    "F_TRIG": Latch,
    "CTU": Counter,
    "CTD": Counter,
    "CTUD": Counter,
    "TON": Timer,
    "TOF": Timer,
    "TP": Timer,
}
INPUTS = {
    "SR": "S1 R",
    "RS": "S R1",
    "R_TRIG": "CLK",
    "F_TRIG": "CLK",
    "CTU": "CU R PV",
    "CTD": "CD LD PV",
    "CTUD": "CU CD R LD PV",
    "TON": "IN PT",
    "TOF": "IN PT",
    "TP": "IN PT",
}
OUTPUTS = {
    "SR": "Q1",
    "RS": "Q1",
    "R_TRIG": "Q",
    "F_TRIG": "Q",
    "CTU": "Q CV",
    "CTD": "Q CV",
    "CTUD": "QU QD CV",
    "TON": "Q ET",
    "TOF": "Q ET",
    "TP": "Q ET",
}


class Frame:
    """The variables of a unit: values, lists of values, and instances, by their names in upper case."""

    def __init__(self, unit: Unit, kinds: dict[str, Kind], machine):
        self.unit, self.kinds, self.loops = unit, kinds, {}
        self.values = {name: machine.opening(kind) for name, kind in kinds.items()}


class Machine:
    """A whole text: its programs run scan by scan."""

    def __init__(self, text: Text):
        self.text = text
        self.units = {it.name.upper(): it for it in self.text.units}
        self.constants: dict[str, tuple[object, str | None]] = {}
        self.types = {it.names[0].upper(): it for it in self.text.types}
        self.globals: dict[str, tuple[Kind, object]] = {}
        self.image: dict[str, object] = {}
        self.now = 0
        lists = [of for it in self.text.configurations for of in it.lists]
        self.frame = None
        for of in (it for it in lists if it.is_constant):
            self.take_constants(of, self.constants)
        for it in self.text.types:
            self.enumeration(it)
        self.shared: dict[str, object] = {}
        self.shared_kinds = self.kinds_of([it for it in lists if not it.is_constant])
        self.shared = {name: self.opening(kind) for name, kind in self.shared_kinds.items()}
        self.tasks = {
            it.task.upper(): self.frame_of(it.unit.upper()) for of in self.text.configurations for it in of.lines
        }

    # Types

    def take_constants(self, of, into):
        for it in of.declarations:
            kind = self.kind(it.type)
            for token in it.names:
                into[token.upper()] = (
                    self.stored(kind, self.value(it.initial)[0]) if it.initial is not None else kind.first,
                    kind.name,
                )

    def enumeration(self, it):
        following = 0
        for token, written in it.type.values:
            following = self.value(written)[0] if written is not None else following
            self.constants[token.upper()] = self.constants[f"{it.names[0].upper()}#{token.upper()}"] = (
                following,
                "INT",
            )
            following += 1

    def kind(self, written: TypeOf) -> Kind:
        if written.values:
            numbers = [self.constants[token.upper()][0] for token, _ in written.values]
            return Kind("INT", min(numbers), max(numbers), numbers[0])
        if written.element is not None:
            low, high = (self.value(it)[0] for it in written.bounds[0])
            return Kind("ARRAY", element=self.kind(written.element), bounds=(low, high))
        name = written.name.upper()
        if name == "BOOL":
            return Kind("BOOL", first=False)
        if name == "TIME":
            return Kind("TIME", 0, LONGEST, 0)
        if name in WHOLE:
            low, high = (self.value(it)[0] for it in written.bounds[0]) if written.bounds else WHOLE[name]
            return Kind(name, low, high, low if written.bounds else 0)
        if name in self.types:
            made = self.kind(self.types[name].type)
            if self.types[name].initial is not None:
                made.first = self.stored(made, self.value(self.types[name].initial)[0])
            return made
        return Kind(name)

    def kinds_of(self, lists) -> dict[str, Kind]:
        found = {}
        for of in lists:
            for it in of.declarations:
                for token in it.names:
                    kind = self.kind(it.type)
                    if it.initial is not None:
                        kind.first = self.stored(kind, self.value(it.initial)[0])
                    found[token.upper()] = kind
        return found

    def opening(self, kind: Kind):
        if kind.element is not None:
            return {at: kind.element.first for at in range(kind.bounds[0], kind.bounds[1] + 1)}
        if kind.name in STANDARD:
            return STANDARD[kind.name](kind.name)
        return self.frame_of(kind.name) if kind.name in self.units else kind.first

    def frame_of(self, name: str) -> Frame:
        unit, outer = self.units[name], self.frame
        self.frame = Frame(unit, {}, self)
        self.frame.constants = {}
        for of in unit.lists:
            if of.is_constant and of.kind == "VAR":
                self.take_constants(of, self.frame.constants)
        own = [of for of in unit.lists if of.kind != "VAR_EXTERNAL" and not (of.is_constant and of.kind == "VAR")]
        kinds, constants = self.kinds_of(own), self.frame.constants
        if unit.result is not None:
            kinds[name] = self.kind(unit.result)
        made = Frame(unit, kinds, self)
        made.constants = constants
        self.frame = outer
        return made

    def stored(self, kind: Kind, value):
        if (kind.name == "BOOL") != isinstance(value, bool):
            raise Wrong(f"{value} into {kind.name}")
        if kind.name != "BOOL" and not kind.low <= value <= kind.high:
            raise Wrong(f"{value} outside of {kind.low}..{kind.high}")
        return value

    # Expressions: each has a value and the name of its type, None for a number without one

    def value(self, node):
        if isinstance(node, Literal):
            return node.value, node.type
        if isinstance(node, Variable):
            return self.read(node)
        if isinstance(node, Unary):
            value, type = self.value(node.value)
            return (not value, type) if node.operator == "NOT" else self.in_type(-value, type)
        if isinstance(node, Binary):
            (a, one), (b, other) = self.value(node.left), self.value(node.right)
            return self.calculated(node.operator, a, b, one or other)
        return self.called(node)

    def in_type(self, value, type):
        low, high = WHOLE.get(type, (0, LONGEST) if type == "TIME" else (value, value))
        if not low <= value <= high:
            raise Wrong(f"{value} outside of {type}")
        return value, type

    def calculated(self, operator, a, b, type):
        if operator in ("=", "<>", "<", ">", "<=", ">="):
            return {"=": a == b, "<>": a != b, "<": a < b, ">": a > b, "<=": a <= b, ">=": a >= b}[operator], "BOOL"
        if operator in ("AND", "OR", "XOR"):
            return {"AND": a and b, "OR": a or b, "XOR": a != b}[operator], "BOOL"
        if operator in ("/", "MOD"):
            if b == 0:
                raise Wrong("a division by 0")
            quotient = abs(a) // abs(b) if (a >= 0) == (b >= 0) else -(abs(a) // abs(b))
            return self.in_type(quotient if operator == "/" else a - quotient * b, type)
        return self.in_type({"+": a + b, "-": a - b, "*": a * b}[operator], type)

    def read(self, node: Variable):
        key, frame = node.name.upper(), self.frame
        if frame is not None and key in frame.loops:
            return frame.loops[key]
        if frame is not None and key in frame.kinds:
            kind, held = frame.kinds[key], frame.values[key]
        elif frame is not None and key in frame.constants:
            return frame.constants[key]
        elif key in self.constants:
            return self.constants[key]
        elif key in self.shared:
            kind, held = self.shared_kinds[key], self.shared[key]
        else:
            held = self.image[key]
            held = held[self.value(node.index)[0]] if node.index is not None else held
            return held, "BOOL" if isinstance(held, bool) else "TIME" if key == "NOW" else "INT"
        if node.member is not None:
            return self.member(held, node.member.upper())
        if node.index is not None:
            return self.element(kind, held, node), kind.element.name
        return held, kind.name

    def element(self, kind, held, node):
        at = self.value(node.index)[0]
        if at not in held:
            raise Wrong(f"index {at} of {node.name}")
        return held[at]

    @staticmethod
    def member(held, name):
        if isinstance(held, Frame):
            return held.values[name], held.kinds[name].name
        return getattr(held, name), {"ET": "TIME", "CV": "INT"}.get(name, "BOOL")

    # Calls

    def called(self, node: Call):
        key = node.name.upper()
        if key in self.units:
            return self.own_function(key, node)
        order = {"LIMIT": ["MN", "IN", "MX"], "SEL": ["G", "IN0", "IN1"]}.get(key)
        if order and node.arguments[0].name is not None:
            given = {it.name.upper(): self.value(it.value) for it in node.arguments}
            values = [given[it] for it in order]
        else:
            values = [self.value(it.value) for it in node.arguments]
        numbers = [it for it, _ in values]
        type = next((it for _, it in (values[1:] if key == "SEL" else values) if it is not None), None)
        if key == "SEL":
            return numbers[2] if numbers[0] else numbers[1], type
        if key == "LIMIT":
            return min(max(numbers[1], numbers[0]), numbers[2]), type
        if key in ("MIN", "MAX"):
            return (min if key == "MIN" else max)(numbers), type
        if key == "ABS":
            return self.in_type(abs(numbers[0]), type)
        return self.in_type(numbers[0], key.split("_TO_")[1])

    def own_function(self, key, node: Call):
        frame = self.frame_of(key)
        inputs = [
            token.upper()
            for of in frame.unit.lists
            if of.kind == "VAR_INPUT"
            for it in of.declarations
            for token in it.names
        ]
        for position, it in enumerate(node.arguments):
            name = it.name.upper() if it.name else inputs[position]
            frame.values[name] = self.stored(frame.kinds[name], self.value(it.value)[0])
        self.run(frame)
        return frame.values[key], frame.kinds[key].name

    def invoke(self, node: Call):
        instance = self.frame.values[node.name.upper()]
        kind = self.frame.kinds[node.name.upper()].name
        own = isinstance(instance, Frame)
        inputs = (
            [
                token.upper()
                for of in instance.unit.lists
                if of.kind == "VAR_INPUT"
                for it in of.declarations
                for token in it.names
            ]
            if own
            else INPUTS[kind].split()
        )
        for position, it in enumerate(node.arguments):
            if not it.is_output:
                name = it.name.upper() if it.name else inputs[position]
                self.store_member(instance, name, self.value(it.value)[0])
        if own:
            self.run(instance)
        else:
            instance.run(self.now)
        for it in node.arguments:
            if it.is_output:
                value, _ = self.member(instance, it.name.upper())
                self.store(it.value, not value if it.is_negated else value)

    def store_member(self, instance, name, value):
        if isinstance(instance, Frame):
            instance.values[name] = self.stored(instance.kinds[name], value)
        else:
            setattr(instance, name, value)

    # Statements

    def run(self, frame: Frame):
        outer, self.frame = self.frame, frame
        try:
            self.statements(frame.unit.body)
        except Left:
            pass
        self.frame = outer

    def statements(self, body):
        for it in body:
            self.statement(it)

    def statement(self, node):
        if isinstance(node, Assign):
            self.store(node.target, self.value(node.value)[0])
        elif isinstance(node, Invoke):
            self.invoke(node.call)
        elif isinstance(node, If):
            branch = next((it for it in node.branches if it.condition is None or self.value(it.condition)[0]), None)
            self.statements(branch.body if branch else [])
        elif isinstance(node, Case):
            self.case(node)
        elif isinstance(node, For):
            self.loop(node)
        elif isinstance(node, Leave):
            raise Left(node.word)

    def store(self, target: Variable, value):
        key, frame = target.name.upper(), self.frame
        if target.member is not None:
            return self.store_member(frame.values[key], target.member.upper(), value)
        kinds, values = (frame.kinds, frame.values) if key in frame.kinds else (self.shared_kinds, self.shared)
        if key not in kinds:
            self.image[key] = value
        elif target.index is None:
            values[key] = self.stored(kinds[key], value)
        else:
            self.element(kinds[key], values[key], target)
            values[key][self.value(target.index)[0]] = self.stored(kinds[key].element, value)

    def case(self, node: Case):
        value = self.value(node.selector)[0]
        for choice in node.choices:
            if any(self.value(low)[0] <= value <= self.value(high)[0] for low, high in choice.labels):
                return self.statements(choice.body)
        if node.otherwise:
            self.statements(node.otherwise.body)

    def loop(self, node: For):
        key = node.variable.upper()
        at, last, by = self.value(node.first)[0], self.value(node.last)[0], self.value(node.by)[0] if node.by else 1
        try:
            while at <= last if by > 0 else at >= last:
                self.frame.loops[key] = (at, self.frame.kinds[key].name)
                try:
                    self.statements(node.body)
                except Left as left:
                    if left.word != "CONTINUE":
                        raise
                at += by
        except Left as left:
            if left.word != "EXIT":
                raise
        finally:
            self.frame.loops.pop(key, None)

    # Scans

    def scan(self, task: str, image: dict[str, object]):
        """A scan of a task, with what it sees of the image."""
        self.image, self.now = dict(image), image["NOW"]
        self.run(self.tasks[task])

    def values_of(self, task: str, without=()) -> dict[str, object]:
        """The variables of a task by the names that `watch` takes."""
        return dict(named(task, self.tasks[task], without))


def named(path: str, frame: Frame, without=()):
    controls = {it.variable.upper() for it in loops_in(frame.unit.body)}
    for name, value in frame.values.items():
        if name in controls:
            continue
        if isinstance(value, dict):
            yield from ((f"{path}.{name}[{at}]", it) for at, it in value.items())
        elif isinstance(value, Frame):
            yield from named(f"{path}.{name}", value)
        elif isinstance(value, (Timer, Counter, Latch)):
            kind = frame.kinds[name].name
            yield from (
                (f"{path}.{name}.{it}", getattr(value, it)) for it in (INPUTS[kind] + " " + OUTPUTS[kind]).split()
            )
        else:
            yield f"{path}.{name}", value


def loops_in(body):
    for it in body:
        if isinstance(it, For):
            yield it
            yield from loops_in(it.body)
        elif isinstance(it, If):
            yield from (loop for branch in it.branches for loop in loops_in(branch.body))
        elif isinstance(it, Case):
            yield from (
                loop
                for choice in [*it.choices, *([it.otherwise] if it.otherwise else [])]
                for loop in loops_in(choice.body)
            )
