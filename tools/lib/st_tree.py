"""The tree of a text in Structured Text, as st_read.py makes it, and why a text is refused."""
from __future__ import annotations

import typing
from dataclasses import dataclass, field

if typing.TYPE_CHECKING:
    from lark import Token

WHOLE = {
    "SINT": (-128, 127),
    "INT": (-32768, 32767),
    "DINT": (-(2**31), 2**31 - 1),
    "USINT": (0, 255),
    "UINT": (0, 65535),
    "UDINT": (0, 2**32 - 1),
}
LONGEST_DURATION = 2_147_483_647
SUBRANGE = "write an integer type with a subrange, such as INT (0..100), in smaller parts: tenths or hundredths"
BITS = "write BOOL for each bit, or an integer type"
EDITION_3 = "write functions, function blocks and programs"
LEFT_OUT = {  # words that the profile leaves out, and what to write instead
    "WHILE": (
        "write FOR with bounds that are known when the text is translated, and leave it by EXIT; " "or one step a scan"
    ),
    "REPEAT": (
        "write FOR with bounds that are known when the text is translated, and leave it by EXIT; " "or one step a scan"
    ),
    "REAL": SUBRANGE,
    "LREAL": SUBRANGE,
    "LINT": "write DINT or UDINT",
    "ULINT": "write UDINT",
    "BYTE": BITS,
    "WORD": BITS,
    "DWORD": BITS,
    "LWORD": BITS,
    "STRING": "write a number for each text",
    "WSTRING": "write a number for each text",
    "DATE": "write TIME, and NOW for the plant's time",
    "TIME_OF_DAY": "write TIME, and NOW for the plant's time",
    "TOD": "write TIME, and NOW for the plant's time",
    "DATE_AND_TIME": "write TIME, and NOW for the plant's time",
    "DT": "write TIME, and NOW for the plant's time",
    "STRUCT": "write a variable for each part, or a function block with outputs",
    "VAR_IN_OUT": "write VAR_INPUT and VAR_OUTPUT",
    "VAR_TEMP": "write VAR, and give it its value in each scan",
    "VAR_ACCESS": "write VAR_GLOBAL",
    "VAR_CONFIG": "write initial values where variables are declared",
    "AT": "use the names of the image",
    "RETAIN": "remove it, since all variables are kept from scan to scan, and a start begins anew",
    "NON_RETAIN": "remove it, since a start begins anew",
    "R_EDGE": "write an instance of R_TRIG",
    "F_EDGE": "write an instance of F_TRIG",
    "SINGLE": "remove it, since each task runs once a round",
    "GOTO": "write IF, CASE, EXIT, CONTINUE or RETURN",
    "INITIAL_STEP": "write CASE over a variable for the step",
    "TRANSITION": "write CASE over a variable for the step",
    "CLASS": EDITION_3,
    "METHOD": EDITION_3,
    "INTERFACE": EDITION_3,
    "NAMESPACE": EDITION_3,
    "POINTER": "write an array with an index",
    "REF_TO": "write an array with an index",
}


@dataclass(frozen=True)
class Place:
    """Where something stands: its line and column from 1, and how long the mark below it is."""

    line: int
    column: int
    length: int = 1


class Refusal(Exception):
    """Why no text is made, and where."""

    def __init__(self, place: Place, why: str):
        super().__init__(why)
        self.place, self.why = place, why


@dataclass
class Node:
    place: Place  # of what is marked
    span: tuple[int, int]  # from its first byte to behind its last


@dataclass
class Literal(Node):
    value: int | bool
    type: str | None  # None: a number without a type


@dataclass
class Variable(Node):
    name: str
    index: "Node | None" = None
    member: str | None = None
    type: str | None = None  # found by st_names.py


@dataclass
class Unary(Node):
    operator: str  # NOT or -
    value: Node
    type: str | None = None


@dataclass
class Binary(Node):
    operator: str
    left: Node
    right: Node
    type: str | None = None


@dataclass
class Argument(Node):
    name: str | None  # None: by its position
    value: Node
    is_output: bool = False
    is_negated: bool = False


@dataclass
class Call(Node):
    name: str
    arguments: list[Argument]
    type: str | None = None


@dataclass
class Assign(Node):
    target: Variable
    value: Node


@dataclass
class Invoke(Node):
    call: Call


@dataclass
class Branch(Node):
    condition: Node | None  # None: ELSE
    body: list[Node]


@dataclass
class If(Node):
    branches: list[Branch]


@dataclass
class Choice(Node):
    """A branch of CASE."""

    labels: list[tuple[Node, Node]]
    body: list[Node]


@dataclass
class Case(Node):
    selector: Node
    choices: list[Choice]
    otherwise: Branch | None


@dataclass
class For(Node):
    variable: Token
    first: Node
    last: Node
    by: Node | None
    body: list[Node]


@dataclass
class Leave(Node):
    """EXIT, CONTINUE or RETURN."""

    word: str


@dataclass
class TypeOf(Node):
    """A type as it is written."""

    name: Token | None = None
    bounds: list[tuple[Node, Node]] = field(default_factory=list)  # of a subrange one, of an array its dimensions
    element: "TypeOf | None" = None  # of an array
    values: list[tuple[Token, Node | None]] = field(default_factory=list)  # of an enumeration


@dataclass
class Declaration(Node):
    names: list[Token]
    type: TypeOf
    initial: Node | None


@dataclass
class VarList(Node):
    kind: str  # VAR, VAR_INPUT ..
    is_constant: bool
    declarations: list[Declaration]


@dataclass
class Unit(Node):
    kind: str  # FUNCTION, FUNCTION_BLOCK or PROGRAM
    name: Token
    result: TypeOf | None
    lists: list[VarList]
    body: list[Node]


@dataclass
class Task(Node):
    name: Token
    interval: Node
    priority: Node


@dataclass
class Line(Node):
    """A PROGRAM line of the configuration."""

    name: Token
    task: Token
    unit: Token


@dataclass
class Configuration(Node):
    name: Token
    lists: list[VarList]
    resource: Token
    processor: Token
    tasks: list[Task]
    lines: list[Line]


@dataclass
class Text:
    """A whole text: its types, units and configurations, and its comments by their offsets."""

    source: str
    types: list[Declaration]
    units: list[Unit]
    configurations: list[Configuration]
    comments: list[Token]


def place_of(token: Token) -> Place:
    return Place(token.line, token.column, max(1, len(token.split("\n")[0])))
