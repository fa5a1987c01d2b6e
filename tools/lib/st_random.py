"""Random programs in Structured Text, for tools/st-trial, that stay in the ranges of their variables, so that nearly
all are accepted.

Each expression is made with the range that it has by the declared ranges of what it reads, and by the tests around it;
what doesn't fit is held by LIMIT, MIN and MAX. The programs have all statements and operators that tools/st takes,
functions, function blocks, standard blocks, types, constants and a global.
"""
import random
from dataclasses import dataclass, field

from lib.st_tree import LONGEST_DURATION, WHOLE

TIME = (0, LONGEST_DURATION)
OR, XOR, AND, EQUAL, ORDER, SUM, TERM, UNARY, PRIMARY = range(1, 10)  # how tightly an expression binds
IMAGE = {"CAR1": ["LEVEL", "TOP", "BOTTOM", "LOCKED", "OPENED", "FIRE"], "GROUP": ["FIRE"]}


@dataclass
class Place:
    """What a unit may read, and perhaps store into."""

    name: str
    type: str
    low: int
    high: int
    is_stored: bool = True
    bounds: tuple[int, int] | None = None  # of an array


@dataclass
class Made:
    """An expression: its text, how tightly it binds, and its range."""

    text: str
    binds: int
    low: int = 0
    high: int = 0

    def inside(self, binds: int, rnd) -> str:
        return f"({self.text})" if self.binds < binds or rnd.random() < 0.05 else self.text


@dataclass
class Called:
    """A function or a block: its inputs, its outputs, and of a function its result."""

    name: str
    inputs: list[Place]
    outputs: list[Place] = field(default_factory=list)
    result: Place | None = None


BLOCKS = [
    Called(
        "TON",
        [Place("IN", "BOOL", 0, 0), Place("PT", "TIME", *TIME)],
        [Place("Q", "BOOL", 0, 0), Place("ET", "TIME", *TIME)],
    ),
    Called(
        "TOF",
        [Place("IN", "BOOL", 0, 0), Place("PT", "TIME", *TIME)],
        [Place("Q", "BOOL", 0, 0), Place("ET", "TIME", *TIME)],
    ),
    Called(
        "TP",
        [Place("IN", "BOOL", 0, 0), Place("PT", "TIME", *TIME)],
        [Place("Q", "BOOL", 0, 0), Place("ET", "TIME", *TIME)],
    ),
    Called(
        "CTU",
        [Place("CU", "BOOL", 0, 0), Place("R", "BOOL", 0, 0), Place("PV", "INT", *WHOLE["INT"])],
        [Place("Q", "BOOL", 0, 0), Place("CV", "INT", *WHOLE["INT"])],
    ),
    Called(
        "CTD",
        [Place("CD", "BOOL", 0, 0), Place("LD", "BOOL", 0, 0), Place("PV", "INT", *WHOLE["INT"])],
        [Place("Q", "BOOL", 0, 0), Place("CV", "INT", *WHOLE["INT"])],
    ),
    Called(
        "CTUD",
        [Place(it, "BOOL", 0, 0) for it in ("CU", "CD", "R", "LD")] + [Place("PV", "INT", *WHOLE["INT"])],
        [Place("QU", "BOOL", 0, 0), Place("QD", "BOOL", 0, 0), Place("CV", "INT", *WHOLE["INT"])],
    ),
    Called("SR", [Place("S1", "BOOL", 0, 0), Place("R", "BOOL", 0, 0)], [Place("Q1", "BOOL", 0, 0)]),
    Called("RS", [Place("S", "BOOL", 0, 0), Place("R1", "BOOL", 0, 0)], [Place("Q1", "BOOL", 0, 0)]),
    Called("R_TRIG", [Place("CLK", "BOOL", 0, 0)], [Place("Q", "BOOL", 0, 0)]),
    Called("F_TRIG", [Place("CLK", "BOOL", 0, 0)], [Place("Q", "BOOL", 0, 0)]),
]


class Unit:
    """The body of one unit, made statement by statement."""

    def __init__(self, rnd: random.Random, places: list[Place], instances: dict[str, Called], functions: list[Called]):
        self.rnd, self.places, self.instances, self.functions = rnd, places, instances, functions
        self.narrowed: list[dict[str, tuple[int, int]]] = [{}]
        self.loops: dict[str, tuple[int, int]] = {}
        self.lines: list[str] = []
        self.indent = 0
        self.may_return = True

    def chance(self, of: float) -> bool:
        return self.rnd.random() < of

    def put(self, line: str):
        comment = self.rnd.choice(["  (* noted *)", "  // noted"]) if self.chance(0.04) else ""
        self.lines.append("  " * self.indent + line + comment)

    # Numbers and durations

    def range_of(self, place: Place) -> tuple[int, int]:
        for it in reversed(self.narrowed):
            if place.name in it:
                return it[place.name]
        return place.low, place.high

    def literal(self, type: str, value: int, is_bare: bool = False) -> str:
        if type == "TIME":
            return self.rnd.choice(
                [
                    f"T#{value}ms",
                    f"TIME#{value}ms",
                    f"t#{value // 1000}s{value % 1000}ms",
                    f"T#{value // 1000}s_{value % 1000}ms",
                    f"T#{value // 1000}.{value % 1000:03}s",
                ]
            )
        if type == "INT" or is_bare:
            return f"16#{value:X}" if value > 9 and self.chance(0.1) else str(value)
        return f"{type}#{value}"

    def near(self, type: str, low: int | None = None, high: int | None = None) -> int:
        """A value of a type, mostly a small one."""
        least, most = (0, 5000) if type == "TIME" else (max(-20, WHOLE[type][0]), 20)
        least, most = (least if low is None else low), (most if high is None else high)
        return self.rnd.randint(least, most) if least <= most else least

    def leaf(self, type: str) -> Made:
        found = [it for it in self.places if it.type == type and it.bounds is None]
        arrays = [it for it in self.places if it.type == type and it.bounds is not None]
        outputs = [(name, it) for name, called in self.instances.items() for it in called.outputs if it.type == type]
        pick = self.rnd.random()
        if pick < 0.12 and type == "INT" and self.loops:
            name, (low, high) = self.rnd.choice(list(self.loops.items()))
            return Made(name, PRIMARY, low, high)
        if pick < 0.25 and arrays:
            it = self.rnd.choice(arrays)
            return Made(f"{it.name}[{self.index(it)}]", PRIMARY, it.low, it.high)
        if pick < 0.35 and outputs:
            name, it = self.rnd.choice(outputs)
            return Made(f"{name}.{it.name}", PRIMARY, it.low, it.high)
        if pick < 0.8 and found:
            it = self.rnd.choice(found)
            return Made(it.name, PRIMARY, *self.range_of(it))
        value = self.near(type)
        return Made(self.literal(type, value), PRIMARY if value >= 0 else UNARY, value, value)

    def index(self, array: Place) -> str:
        low, high = array.bounds
        fitting = [
            it.name
            for it in self.places
            if it.bounds is None and it.type in WHOLE and low <= self.range_of(it)[0] and self.range_of(it)[1] <= high
        ]
        pick = self.rnd.random()
        if pick < 0.35 and fitting:
            return self.rnd.choice(fitting)
        if pick < 0.5:
            fitting = [name for name, (a, b) in self.loops.items() if low <= a and b <= high]
            if fitting:
                return self.rnd.choice(fitting)
        if pick < 0.75:
            return str(self.rnd.randint(low, high))
        return self.fitted("INT", self.number("INT", 1), low, high).text

    def number(self, type: str, depth: int) -> Made:
        """An expression of an integer type or of TIME."""
        if depth <= 0 or self.chance(0.15):
            return self.leaf(type)
        kinds = [self.sum, self.sum, self.sum, self.choice, self.bounded, self.own]
        if type in WHOLE:
            kinds += [self.product, self.product, self.quotient, self.quotient, self.size, self.converted]
        made = self.rnd.choice(kinds)(type, depth)
        return made if made is not None else self.leaf(type)

    def sum(self, type: str, depth: int) -> Made | None:
        left, right, sign = self.number(type, depth - 1), self.number(type, depth - 1), self.rnd.choice("+-")
        if self.chance(0.3) and type in WHOLE:
            value = self.near(type)
            right = Made(self.literal(type, value, True), PRIMARY if value >= 0 else UNARY, value, value)
        low, high = (
            (left.low + right.low, left.high + right.high)
            if sign == "+"
            else (left.low - right.high, left.high - right.low)
        )
        return self.taken(type, f"{left.inside(SUM, self.rnd)} {sign} {right.inside(TERM, self.rnd)}", SUM, low, high)

    def taken(self, type: str, text: str, binds: int, low: int, high: int) -> Made | None:
        least, most = TIME if type == "TIME" else WHOLE[type]
        return Made(text, binds, low, high) if least <= low and high <= most else None

    def product(self, type: str, depth: int) -> Made | None:
        left, right = self.number(type, depth - 1), self.number(type, depth - 1)
        ends = [a * b for a in (left.low, left.high) for b in (right.low, right.high)]
        return self.taken(
            type, f"{left.inside(TERM, self.rnd)} * {right.inside(UNARY, self.rnd)}", TERM, min(ends), max(ends)
        )

    def quotient(self, type: str, depth: int) -> Made | None:
        left, right = self.number(type, depth - 1), self.number(type, depth - 1)
        if right.low <= 0 <= right.high:
            value = self.near(type, 1)
            right = Made(self.literal(type, value, True), PRIMARY, value, value)
        if self.chance(0.5):
            ends = [
                int(abs(a) // abs(b)) * (1 if (a < 0) == (b < 0) else -1)
                for a in (left.low, left.high)
                for b in (right.low, right.high)
            ]
            return self.taken(
                type,
                f"{left.inside(TERM, self.rnd)} / {right.inside(UNARY, self.rnd)}",
                TERM,
                min(ends + [0] * (left.low < 0 < left.high)),
                max(ends),
            )
        most = max(abs(right.low), abs(right.high)) - 1
        low, high = (
            (0, min(left.high, most))
            if left.low >= 0
            else (max(left.low, -most), 0)
            if left.high <= 0
            else (max(left.low, -most), min(left.high, most))
        )
        return self.taken(type, f"{left.inside(TERM, self.rnd)} MOD {right.inside(UNARY, self.rnd)}", TERM, low, high)

    def size(self, type: str, depth: int) -> Made | None:
        it = self.number(type, depth - 1)
        low, high = (
            (it.low, it.high) if it.low >= 0 else (-it.high, -it.low) if it.high <= 0 else (0, max(-it.low, it.high))
        )
        if self.chance(0.3):
            return self.taken(
                type,
                f"-{it.inside(PRIMARY, self.rnd) if not it.text.startswith('-') else f'({it.text})'}",
                UNARY,
                -it.high,
                -it.low,
            )
        return self.taken(type, f"ABS({it.text})", PRIMARY, low, high)

    def choice(self, type: str, depth: int) -> Made:
        no, yes = self.number(type, depth - 1), self.number(type, depth - 1)
        words = f"{self.truth(depth - 1).text}, {no.text}, {yes.text}"
        if self.chance(0.2):
            words = f"G := {self.truth(depth - 1).text}, IN1 := {yes.text}, IN0 := {no.text}"
        return Made(f"SEL({words})", PRIMARY, min(no.low, yes.low), max(no.high, yes.high))

    def bounded(self, type: str, depth: int) -> Made:
        values = [self.number(type, depth - 1) for _ in range(self.rnd.choice([2, 2, 2, 3]))]
        if self.chance(0.3) and len(values) == 3:
            low, value, high = values
            ends = [min(max(getattr(value, end), getattr(low, end)), getattr(high, end)) for end in ("low", "high")]
            return Made(f"LIMIT({', '.join(it.text for it in values)})", PRIMARY, *ends)
        name = self.rnd.choice(["MIN", "MAX"])
        pick = min if name == "MIN" else max
        return Made(
            f"{name}({', '.join(it.text for it in values)})",
            PRIMARY,
            pick(it.low for it in values),
            pick(it.high for it in values),
        )

    def converted(self, type: str, depth: int) -> Made | None:
        other = self.rnd.choice([it for it in WHOLE if it != type])
        it = self.number(other, depth - 1)
        it = self.fitted(other, it, max(WHOLE[type][0], WHOLE[other][0]), min(WHOLE[type][1], WHOLE[other][1]))
        return Made(f"{other}_TO_{type}({it.text})", PRIMARY, it.low, it.high)

    def own(self, type: str, depth: int) -> Made | None:
        found = [it for it in self.functions if it.result.type == type]
        if not found:
            return None
        called = self.rnd.choice(found)
        words = [self.of_type(it, depth - 1).text for it in called.inputs]
        if self.chance(0.3):
            words = [f"{it.name} := {word}" for it, word in zip(called.inputs, words)]
        return Made(f"{called.name}({', '.join(words)})", PRIMARY, called.result.low, called.result.high)

    def fitted(self, type: str, it: Made, low: int, high: int) -> Made:
        """An expression that lies in a range."""
        if low <= it.low and it.high <= high:
            return it
        least, most = self.literal(type, low), self.literal(type, high)
        if self.chance(0.6):
            text = f"LIMIT({least}, {it.text}, {most})"
        elif self.chance(0.5):
            text = f"MIN(MAX({it.text}, {least}), {most})"
        else:
            text = f"MAX(MIN({most}, {it.text}), {least})"
        return Made(text, PRIMARY, max(low, min(it.low, high)), min(high, max(it.high, low)))

    def of_type(self, place: Place, depth: int) -> Made:
        """An expression that may be stored into a place."""
        return (
            self.truth(depth)
            if place.type == "BOOL"
            else self.fitted(place.type, self.number(place.type, depth), place.low, place.high)
        )

    # Booleans

    def truth(self, depth: int) -> Made:
        if depth <= 0 or self.chance(0.15):
            return self.truth_leaf()
        pick = self.rnd.random()
        if pick < 0.35:
            return self.comparison(depth)
        if pick < 0.5:
            it = self.truth(depth - 1)
            return Made(f"NOT {it.inside(UNARY, self.rnd)}", UNARY)
        if pick < 0.56:
            left, right = self.truth(depth - 1), self.truth(depth - 1)
            return Made(
                f"{left.inside(EQUAL, self.rnd)} {self.rnd.choice(['=', '<>'])} {right.inside(ORDER, self.rnd)}", EQUAL
            )
        if pick < 0.62:
            return Made(
                f"SEL({self.truth(depth - 1).text}, {self.truth(depth - 1).text}, {self.truth(depth - 1).text})",
                PRIMARY,
            )
        operator, binds = self.rnd.choice(
            [("AND", AND), ("&", AND), ("AND", AND), ("OR", OR), ("OR", OR), ("XOR", XOR)]
        )
        left, right = self.truth(depth - 1), self.truth(depth - 1)
        return Made(f"{left.inside(binds, self.rnd)} {operator} {right.inside(binds + 1, self.rnd)}", binds)

    def truth_leaf(self) -> Made:
        found = [
            it.name if it.bounds is None else f"{it.name}[{self.index(it)}]" for it in self.places if it.type == "BOOL"
        ]
        found += [
            f"{name}.{it.name}" for name, called in self.instances.items() for it in called.outputs if it.type == "BOOL"
        ]
        return Made(self.rnd.choice(found + ["TRUE", "FALSE"][: self.chance(0.2)]) if found else "TRUE", PRIMARY)

    def comparison(self, depth: int) -> Made:
        type = self.rnd.choice(["INT", "INT", "INT", "DINT", "USINT", "TIME"])
        left, right = self.number(type, depth - 1), self.number(type, depth - 1)
        operator = self.rnd.choice(["=", "<>", "<", ">", "<=", ">="])
        binds = EQUAL if operator in ("=", "<>") else ORDER
        return Made(f"{left.inside(binds, self.rnd)} {operator} {right.inside(binds + 1, self.rnd)}", binds)

    # Statements

    def statements(self, count: int, depth: int):
        for _ in range(count):
            self.statement(depth)

    def statement(self, depth: int):
        kinds = [self.assign] * 8 + [self.invoke] * 3
        if depth > 0:
            kinds += [self.if_statement] * 4 + [self.tested] * 4 + [self.case] * 2 + [self.loop] * 2
        if self.loops:
            kinds += [self.leave]
        if self.may_return and not self.loops and depth < 3:
            kinds += [self.returns]
        self.rnd.choice(kinds)(depth)

    def stored(self) -> Place:
        return self.rnd.choice([it for it in self.places if it.is_stored])

    def forget(self, name: str):
        for it in self.narrowed:
            it.pop(name, None)

    def target(self, place: Place) -> str:
        return place.name if place.bounds is None else f"{place.name}[{self.index(place)}]"

    def assign(self, depth: int):
        place = self.stored()
        value = self.of_type(place, self.rnd.choice([1, 2, 2, 3]))
        if place.type == "BOOL" and place.bounds is None and self.chance(0.15):
            value = Made(f"{place.name} {self.rnd.choice(['OR', 'AND NOT'])} {value.inside(UNARY, self.rnd)}", OR)
        self.put(f"{self.target(place)} := {value.text};")
        self.forget(place.name)

    def invoke(self, depth: int):
        if not self.instances:
            return self.assign(depth)
        name, called = self.rnd.choice(list(self.instances.items()))
        words = [
            f"{it.name} := {self.of_type(it, self.rnd.choice([0, 0, 1, 2])).text}"
            for it in called.inputs
            if self.chance(0.8)
        ]
        self.rnd.shuffle(words)
        for it in called.outputs:
            fitting = [
                to
                for to in self.places
                if to.is_stored
                and to.type == it.type
                and (it.type == "BOOL" or to.low <= it.low and it.high <= to.high)
            ]
            if fitting and self.chance(0.4):
                to = self.rnd.choice(fitting)
                words.append(
                    f"{'NOT ' if it.type == 'BOOL' and self.chance(0.2) else ''}{it.name} => {self.target(to)}"
                )
                self.forget(to.name)
        if self.chance(0.1) and called.inputs and called.inputs[-1].name == "PT":
            self.put(f"{name}.PT := {self.of_type(called.inputs[-1], 1).text};")
        self.put(f"{name}({', '.join(words)});")

    def block(self, narrowed: dict[str, tuple[int, int]], depth: int, count: int | None = None):
        self.narrowed.append(dict(narrowed))
        self.indent += 1
        self.statements(count or self.rnd.choice([1, 1, 1, 2, 2, 3]), depth)
        self.indent -= 1
        self.narrowed.pop()

    def if_statement(self, depth: int):
        self.put(f"IF {self.truth(2).text} THEN")
        self.block({}, depth - 1)
        while self.chance(0.3):
            self.put(f"ELSIF {self.truth(2).text} THEN")
            self.block({}, depth - 1)
        if self.chance(0.4):
            self.put("ELSE")
            self.block({}, depth - 1)
        self.put("END_IF;")

    def tested(self, depth: int):
        """An IF whose tests narrow a variable in its branches."""
        found = [
            it
            for it in self.places
            if it.bounds is None and it.type != "BOOL" and self.range_of(it)[1] - self.range_of(it)[0] > 3
        ]
        if not found:
            return self.assign(depth)
        it = self.rnd.choice(found)
        low, high = self.range_of(it)
        a = self.rnd.randint(low + 1, min(high - 1, low + 60_000))
        b = self.rnd.randint(a, high - 1)
        one, other = self.literal(it.type, a, True), self.literal(it.type, b, True)
        more = f" AND {self.truth(1).inside(AND, self.rnd)}" if self.chance(0.3) else ""
        forms = [
            (f"{it.name} > {one}{more}", (a + 1, high), None if more else (low, a)),
            (f"{it.name} >= {one} AND {it.name} <= {other}{more}", (a, b), None),
            (f"{one} <= {it.name}{more}", (a, high), None if more else (low, a - 1)),
            (f"NOT ({it.name} > {one}){more}", (low, a), None if more else (a + 1, high)),
            (f"{it.name} < {one} OR {it.name} > {other}", None, (a, b)),
            (f"{it.name} = {one}{more}", (a, a), None),
            (f"{it.name} <> {one}", None, (a, a)),
            (f"{it.name} < {one} OR {self.truth(1).inside(XOR, self.rnd)}", None, (a, high)),
        ]
        condition, yes, no = self.rnd.choice(forms)
        self.put(f"IF {condition} THEN")
        self.block({it.name: yes} if yes else {}, depth - 1)
        if self.chance(0.6):
            self.put("ELSE")
            self.block({it.name: no} if no else {}, depth - 1)
        self.put("END_IF;")

    def case(self, depth: int):
        found = [it for it in self.places if it.bounds is None and it.type in WHOLE and it.high - it.low < 300]
        it = self.rnd.choice(found) if found and self.chance(0.8) else None
        if it is None:
            selector, (low, high) = self.fitted("INT", self.number("INT", 2), 0, 9).text, (0, 9)
        else:
            selector, (low, high) = it.name, (it.low, it.high)
        cuts = sorted(self.rnd.sample(range(low, high + 1), min(high - low + 1, self.rnd.randint(1, 5))))
        self.put(f"CASE {selector} OF")
        self.indent += 1
        for at, cut in enumerate(cuts):
            following = cuts[at + 1] - 1 if at + 1 < len(cuts) else high
            end = self.rnd.choice([cut, following])
            label = str(cut) if end == cut else f"{cut}..{end}"
            narrowed = {it.name: (cut, end)} if it is not None else {}
            if end + 2 <= following and self.chance(0.4):
                label, narrowed = f"{label}, {end + 2}", {}
            self.put(f"{label}:")
            self.block(narrowed, depth - 1)
        self.indent -= 1
        if self.chance(0.5):
            self.put("ELSE")
            self.block({}, depth - 1)
        self.put("END_CASE;")

    def loop(self, depth: int):
        free = [name for name in ("I", "J") if name not in self.loops]
        if not free:
            return self.assign(depth)
        name = free[0]
        first, count, by = self.rnd.randint(-3, 6), self.rnd.randint(0, 4), self.rnd.choice([1, 1, 1, 2, -1, -2])
        last = first + (count - 1) * by + (self.rnd.choice([0, 1]) if by == 2 else 0)
        values = [first + at * by for at in range(count)]
        self.put(f"FOR {name} := {first} TO {last}{f' BY {by}' if by != 1 or self.chance(0.1) else ''} DO")
        self.loops[name] = (min(values), max(values)) if values else (first, first)
        kept, self.narrowed = self.narrowed, [{}]
        self.block({}, min(depth - 1, 1))
        self.narrowed = [{} for _ in kept]
        del self.loops[name]
        self.put("END_FOR;")

    def leave(self, depth: int):
        self.put(f"IF {self.truth(2).text} THEN {self.rnd.choice(['EXIT', 'CONTINUE'])}; END_IF;")

    def returns(self, depth: int):
        self.put(f"IF {self.truth(3).text} AND {self.truth(1).inside(AND, self.rnd)} THEN RETURN; END_IF;")


def places_of(rnd: random.Random, prefix: str, is_stored: bool = True) -> list[Place]:
    """Some scalars."""
    found = [Place(f"{prefix}B{at}", "BOOL", 0, 0, is_stored) for at in range(rnd.randint(1, 3))]
    for at in range(rnd.randint(2, 4)):
        low = rnd.choice([0, 0, 1, -5, -100])
        found.append(Place(f"{prefix}N{at}", "INT", low, low + rnd.choice([3, 8, 9, 200]), is_stored))
    if rnd.random() < 0.5:
        found.append(Place(f"{prefix}W", "INT", *WHOLE["INT"], is_stored))
    for type in rnd.sample(["SINT", "DINT", "USINT", "UINT", "UDINT", "TIME"], 3):
        found.append(Place(f"{prefix}{type}V", type, *(TIME if type == "TIME" else WHOLE[type]), is_stored))
    return found


def type_text(it: Place) -> str:
    whole = it.type == "BOOL" or (it.low, it.high) == (TIME if it.type == "TIME" else WHOLE[it.type])
    scalar = it.type if whole else f"{it.type} ({it.low}..{it.high})"
    return scalar if it.bounds is None else f"ARRAY [{it.bounds[0]}..{it.bounds[1]}] OF {scalar}"


def declared(rnd: random.Random, keyword: str, places: list[Place], instances: dict[str, Called] = {}) -> str:
    if not places and not instances:
        return ""
    lines = []
    for it in places:
        initial = ""
        if it.bounds is None and rnd.random() < 0.4 and keyword != "VAR_INPUT":
            value = rnd.randint(it.low, min(it.high, it.low + 1000))
            initial = " := " + (
                rnd.choice(["TRUE", "FALSE"])
                if it.type == "BOOL"
                else f"T#{value}ms"
                if it.type == "TIME"
                else str(value)
            )
        lines.append(f"  {it.name} : {type_text(it)}{initial};")
    lines += [f"  {name} : {called.name};" for name, called in instances.items()]
    return "\n".join([keyword, *lines, "END_VAR", ""])


def function(rnd: random.Random, name: str) -> tuple[str, Called]:
    inputs = [it for it in places_of(rnd, "X", False) if rnd.random() < 0.6][:4] or [Place("XB0", "BOOL", 0, 0, False)]
    result = Place(name, rnd.choice(["INT", "INT", "DINT", "USINT", "TIME"]), 0, rnd.choice([9, 100, 120]))
    if result.type == "TIME":
        result.high = TIME[1]
    own = places_of(rnd, "L")
    unit = Unit(rnd, [*inputs, *own, result], {}, [])
    unit.statements(rnd.randint(2, 5), 2)
    more = [*own, Place("I", "INT", *WHOLE["INT"]), Place("J", "INT", -20, 40)]
    text = f"FUNCTION {name} : {type_text(result)}\n{declared(rnd, 'VAR_INPUT', inputs)}{declared(rnd, 'VAR', more)}"
    return text + "\n".join([*unit.lines, "END_FUNCTION", ""]), Called(name, inputs, [], result)


def block(rnd: random.Random, functions: list[Called]) -> tuple[str, Called]:
    inputs = [it for it in places_of(rnd, "X", False) if rnd.random() < 0.5][:4]
    outputs, own = places_of(rnd, "Y")[:4], [*places_of(rnd, "L"), Place("LA", "INT", 0, 9, True, (0, 5))]
    instances = {"INNER": rnd.choice(BLOCKS)}
    unit = Unit(rnd, [*inputs, *outputs, *own], instances, functions)
    unit.statements(rnd.randint(3, 7), 2)
    text = "FUNCTION_BLOCK OWN\n" + declared(rnd, "VAR_INPUT", inputs) + declared(rnd, "VAR_OUTPUT", outputs)
    text += declared(rnd, "VAR", [*own, Place("I", "INT", *WHOLE["INT"]), Place("J", "INT", -20, 40)], instances)
    return text + "\n".join([*unit.lines, "END_FUNCTION_BLOCK", ""]), Called("OWN", inputs, outputs)


def program(rnd: random.Random, name: str, task: str, functions: list[Called], blocks: list[Called]) -> str:
    own = [
        *places_of(rnd, "V"),
        Place("AN", "INT", -3, 20, True, (1, 8)),
        Place("AB", "BOOL", 0, 0, True, (-2, 3)),
        Place("SHADE", "INT", 0, 2),
        Place("FLOOR", "INT", 1, 8),
    ]
    seen = [Place(it, "BOOL", 0, 0, False) for it in IMAGE[task]] + [
        Place("NOW", "TIME", *TIME, False),
        Place("CALLWAITS", "BOOL", 0, 0, False, (1, 4)),
        Place("CALLFROM", "INT", 0, 8, False, (1, 4)),
    ]
    seen += (
        [Place("POS", "INT", 1, 8, False), Place("MOTOR", "INT", -1, 1), Place("OPEN", "BOOL", 0, 0)]
        if task == "CAR1"
        else [Place("CPOS", "INT", 1, 8, False, (1, 1))]
    )
    seen += [
        Place("RED", "INT", 0, 0, False),
        Place("BLUE", "INT", 2, 2, False),
        Place("MANY", "INT", 5, 5, False),
        Place("DEEP", "DINT", 70_000, 70_000, False),
    ]
    shared = Place("SHARED", "INT", 0, 50, task == "CAR1")
    instances = {f"T{at}": it for at, it in enumerate(rnd.sample(BLOCKS, 3) + blocks)}
    unit = Unit(rnd, [*own, *seen, shared], instances, functions)
    unit.statements(rnd.randint(5, 12), 3)
    plain = [it for it in own if it.name not in ("SHADE", "FLOOR")]
    own = [*plain, Place("I", "INT", *WHOLE["INT"]), Place("J", "INT", -20, 40)]
    text = f"PROGRAM {name}\n{declared(rnd, 'VAR', own, instances)}"
    text += (
        "VAR SHADE : COLOUR; FLOOR : STOREY; END_VAR\nVAR CONSTANT MANY : INT := 2 + 3; DEEP : DINT := 70_000; "
        "END_VAR\nVAR_EXTERNAL SHARED : INT (0..50); END_VAR\n"
    )
    return text + "\n".join([*unit.lines, "END_PROGRAM", ""])


def text_of(seed: int) -> str:
    """A whole random text: a program for CAR1 and one for GROUP."""
    rnd = random.Random(seed)
    text = "TYPE COLOUR : (RED, GREEN, BLUE); STOREY : INT (1..FLOORS) := 3; END_TYPE\n"
    functions, blocks = [], []
    for name in ("FIRST", "SECOND")[: rnd.randint(0, 2)]:
        made, called = function(rnd, name)
        text += made
        functions.append(called)
    if rnd.random() < 0.6:
        made, called = block(rnd, functions)
        text += made
        blocks.append(called)
    text += program(rnd, "RUNS", "CAR1", functions, blocks) + program(rnd, "LEADS", "GROUP", functions, blocks)
    return (
        text
        + """CONFIGURATION TRIAL
VAR_GLOBAL CONSTANT CARS : INT := 1; FLOORS : INT := 8; SLOTS : INT := 4; END_VAR
VAR_GLOBAL SHARED : INT (0..50); END_VAR
RESOURCE CABINET ON PLC
TASK CAR1 (INTERVAL := T#100ms, PRIORITY := 1);
TASK GROUP (INTERVAL := T#100ms, PRIORITY := 1);
PROGRAM P1 WITH CAR1 : RUNS;
PROGRAM P2 WITH GROUP : LEADS;
END_RESOURCE
END_CONFIGURATION
"""
    )
