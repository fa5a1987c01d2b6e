"""The names and types of a text in Structured Text, for tools/st: what each name is, the type of each expression, and
the value of each constant one.
"""
import dataclasses
from dataclasses import dataclass, field

from lib.st_tree import (
    LEFT_OUT,
    LONGEST_DURATION,
    WHOLE,
    Argument,
    Binary,
    Call,
    Literal,
    Node,
    Place,
    Refusal,
    Text,
    TypeOf,
    Unary,
    Unit,
    Variable,
    VarList,
    place_of,
)

RESERVED = set(
    "LD LDN ST STN S R AND ANDN OR ORN XOR XORN NOT ADD SUB MUL DIV MOD GT GE EQ NE LE LT JMP JMPC JMPCN CAL "
    "CALC CALCN RET RETC RETCN BOOL SINT INT DINT USINT UINT UDINT TIME ARRAY OF"
    " TRUE FALSE VAR VAR_INPUT VAR_OUTPUT VAR_EXTERNAL VAR_GLOBAL CONSTANT END_VAR FUNCTION FUNCTION_BLOCK "
    "PROGRAM CONFIGURATION RESOURCE END_FUNCTION END_FUNCTION_BLOCK END_PROGRAM"
    " END_CONFIGURATION END_RESOURCE ON TASK WITH INTERVAL PRIORITY".split()
)
SIZES = "CARS", "FLOORS", "SLOTS"
COMPARISONS = {"=": "<>", "<>": "=", "<": ">=", ">=": "<", ">": "<=", "<=": ">"}  # each with what its negation is
MIRRORED = {
    "=": "=",
    "<>": "<>",
    "<": ">",
    ">": "<",
    "<=": ">=",
    ">=": "<=",
    "+": "+",
    "*": "*",
    "AND": "AND",
    "OR": "OR",
    "XOR": "XOR",
}
INSTEAD = (
    {  # standard functions that the profile leaves out
        "MUX": "write CASE",
        "MOVE": "write `:=`",
        "SQRT": "write a table, as an array",
        "EXPT": "write products",
        "SHL": "write a product",
        "SHR": "write a quotient",
        "ROL": "write products and MOD",
        "ROR": "write products and MOD",
        "TRUNC": "REAL is left out too",
        "LEN": "STRING is left out too",
        "CONCAT": "STRING is left out too",
    }
    | {
        name: "REAL is left out too: write a table, as an array"
        for name in "LN LOG EXP SIN COS TAN ASIN ACOS ATAN".split()
    }
    | {
        name: f"write `{sign}`"
        for name, sign in {
            "ADD": "+",
            "SUB": "-",
            "MUL": "*",
            "DIV": "/",
            "GT": ">",
            "GE": ">=",
            "EQ": "=",
            "NE": "<>",
            "LE": "<=",
            "LT": "<",
            "ADD_TIME": "+",
            "SUB_TIME": "-",
        }.items()
    }
)


@dataclass(frozen=True)
class Scalar:
    base: str
    low: int | None = None
    high: int | None = None

    def __str__(self) -> str:
        return self.base if self.low is None else f"{self.base} ({self.low}..{self.high})"

    @property
    def range(self) -> tuple[int, int]:
        return (self.low, self.high) if self.low is not None else WHOLE.get(self.base, (0, LONGEST_DURATION))


@dataclass(frozen=True)
class Array:
    low: int
    high: int
    element: Scalar

    def __str__(self) -> str:
        return f"ARRAY [{self.low}..{self.high}] OF {self.element}"


@dataclass(frozen=True)
class Instance:
    block: str

    def __str__(self) -> str:
        return self.block


BOOL, INT, TIME = Scalar("BOOL"), Scalar("INT"), Scalar("TIME")


@dataclass
class Interface:
    """What a function or a block takes and gives."""

    inputs: dict[str, Scalar]
    outputs: dict[str, Scalar] = field(default_factory=dict)
    result: Scalar | None = None


def standard(inputs: str, outputs: str) -> Interface:
    types = {"PV": INT, "CV": INT, "PT": TIME, "ET": TIME}
    return Interface(
        {it: types.get(it, BOOL) for it in inputs.split()}, {it: types.get(it, BOOL) for it in outputs.split()}
    )


BLOCKS = {
    "SR": standard("S1 R", "Q1"),
    "RS": standard("S R1", "Q1"),
    "R_TRIG": standard("CLK", "Q"),
    "F_TRIG": standard("CLK", "Q"),
    "CTU": standard("CU R PV", "Q CV"),
    "CTD": standard("CD LD PV", "Q CV"),
    "CTUD": standard("CU CD R LD PV", "QU QD CV"),
    "TP": standard("IN PT", "Q ET"),
    "TON": standard("IN PT", "Q ET"),
    "TOF": standard("IN PT", "Q ET"),
}
FUNCTIONS = {"ABS": 1, "MIN": None, "MAX": None, "LIMIT": 3, "SEL": 3} | {
    f"{one}_TO_{other}": 1 for one in WHOLE for other in WHOLE if one != other
}
FORMAL = {"LIMIT": ["MN", "IN", "MX"], "SEL": ["G", "IN0", "IN1"], "ABS": ["IN"]}
OUTPUTS = {"MOTOR", "OPEN", "SERVE", "ASSIGN"}


def image(cars: int, floors: int, slots: int) -> dict[str, Scalar | Array]:
    """The image names with their types, but for the sizes, which are constants."""
    floor, any_floor, car = Scalar("INT", 1, floors), Scalar("INT", 0, floors), Scalar("INT", 0, cars)
    return {
        "NOW": TIME,
        "RUNLIMIT": car,
        "FIRE": BOOL,
        "CARNO": Scalar("INT", 1, cars),
        "POS": floor,
        "LEVEL": BOOL,
        "TOP": BOOL,
        "BOTTOM": BOOL,
        "LOCKED": BOOL,
        "OPENED": BOOL,
        "CPOS": Array(1, cars, floor),
        "CMOTOR": Array(1, cars, Scalar("INT", -1, 1)),
        "CALLWAITS": Array(1, slots, BOOL),
        "CALLFROM": Array(1, slots, any_floor),
        "CALLTO": Array(1, slots, any_floor),
        "CALLCAR": Array(1, slots, car),
        "MOTOR": Scalar("INT", -1, 1),
        "OPEN": BOOL,
        "SERVE": Scalar("INT", 0, slots),
        "ASSIGN": Array(1, slots, car),
    }


IMAGE = set(image(8, 16, 64))
PREDECLARED = IMAGE | set(SIZES) | set(BLOCKS) | set(FUNCTIONS)


@dataclass
class Symbol:
    name: str
    kind: str  # input, output, variable, external, image or result
    type: Scalar | Array | Instance
    initial: Literal | None
    place: Place


class Names:
    """What all units of a text share: types, constants, and the interfaces of units."""

    def __init__(self, text: Text):
        self.text = text
        self.constants: dict[str, Literal] = {}
        self.types: dict[str, tuple[Scalar | Array | Instance, Literal | None]] = {}
        self.functions: dict[str, Interface] = {}
        self.blocks: dict[str, Interface] = dict(BLOCKS)
        self.globals: dict[str, Symbol] = {}
        self.image: dict[str, Scalar | Array] = {}
        self.scope = Scope(self)
        for configuration in text.configurations:
            self.take_constants(configuration.lists)
        self.take_types()
        self.take_blocks()
        for unit in text.units:
            self.take_interface(unit)
        if all(it in self.constants for it in SIZES):
            self.image = image(*(int(self.constants[it].value) for it in SIZES))
        for configuration in text.configurations:
            self.take_globals(configuration.lists)

    def named(self, token) -> str:
        """A new name, which has to be free of the words that Instruction List keeps for itself."""
        if token.upper() in RESERVED | PREDECLARED:
            raise Refusal(place_of(token), f"{token} is a word of the language: write another name")
        if len(token) > 32 or "__" in token or token.endswith("_"):
            raise Refusal(
                place_of(token),
                f"{token} is no name: it has letters, digits and single underscores, at most 32 of them",
            )
        return token.upper()

    def check_free(self, key: str, token):
        if key in self.constants or key in self.types:
            raise Refusal(
                place_of(token), f"{token} is declared already, as a type, a constant or a value of an enumeration"
            )

    def take_constants(self, lists: list[VarList]):
        for of in lists:
            for declaration in of.declarations if of.is_constant else ():
                for token in declaration.names:
                    key = token.upper() if token.upper() in SIZES else self.named(token)
                    self.check_free(key, token)
                    self.constants[key] = self.scope.constant_of(declaration, token)

    def take_types(self):
        for it in self.text.types:
            key = self.named(it.names[0])
            self.check_free(key, it.names[0])
            if it.type.values:
                self.types[key] = self.enumeration(key, it.type)
            else:
                self.types[key] = self.scope.type_of(it.type)
            if it.initial is not None:
                type, _ = self.types[key]
                self.types[key] = type, self.scope.initial_of(it.initial, type)

    def enumeration(self, key: str, type: TypeOf):
        """An enumeration is a subrange of INT, its values are constants."""
        values, next_value = [], 0
        for token, written in type.values:
            if written is not None:
                next_value = int(self.scope.constant(written).value)
            literal = Literal(place_of(token), type.span, next_value, "INT")
            self.check_free(self.named(token), token)
            self.constants[self.named(token)] = self.constants[f"{key}#{token.upper()}"] = literal
            values.append(next_value)
            next_value += 1
        first = Literal(type.place, type.span, values[0], "INT")
        return Scalar("INT", min(values), max(values)), first if values[0] != min(values) else None

    def take_blocks(self):
        """The names of the blocks come before their interfaces: a unit may stand in front of a block that it uses."""
        for unit in self.text.units:
            if unit.kind == "FUNCTION_BLOCK":
                self.blocks[self.named(unit.name)] = Interface({})

    def take_interface(self, unit: Unit):
        key = self.named(unit.name)
        scope = Scope(self)
        scope.take_constants(unit.lists)
        of = {
            kind: {
                token.upper(): scope.type_of(it.type)[0]
                for lists in unit.lists
                if lists.kind == kind
                for it in lists.declarations
                for token in it.names
            }
            for kind in ("VAR_INPUT", "VAR_OUTPUT")
        }
        made = Interface(of["VAR_INPUT"], of["VAR_OUTPUT"], scope.type_of(unit.result)[0] if unit.result else None)
        if unit.kind == "FUNCTION_BLOCK":
            self.blocks[key] = made
        elif unit.kind == "FUNCTION":
            self.functions[key] = made

    def take_globals(self, lists: list[VarList]):
        for of in lists:
            for symbol in self.scope.symbols_of(of) if not of.is_constant else ():
                self.globals[symbol.name.upper()] = symbol


class Scope:
    """The names that a unit sees, and the types and values of its expressions."""

    def __init__(self, names: Names):
        self.names = names
        self.constants: dict[str, Literal] = {}
        self.symbols: dict[str, Symbol] = {}
        self.loops: dict[str, Literal] = {}  # the control variables of the loops around, with their values

    # Types and declarations

    def take_constants(self, lists: list[VarList]):
        for of in lists:
            for declaration in of.declarations if of.is_constant and of.kind == "VAR" else ():
                for token in declaration.names:
                    self.constants[self.names.named(token)] = self.constant_of(declaration, token)

    def constant_of(self, declaration, token) -> Literal:
        type, initial = self.type_of(declaration.type)
        if not isinstance(type, Scalar):
            raise Refusal(declaration.place, f"{token} is no scalar: constants are")
        if declaration.initial is not None:
            return self.initial_of(declaration.initial, type)
        return initial or Literal(
            declaration.place,
            declaration.span,
            type.base != "BOOL" and type.range[0] if type.low is not None else 0 if type.base != "BOOL" else False,
            type.base,
        )

    def type_of(self, written: TypeOf) -> tuple[Scalar | Array | Instance, Literal | None]:
        """A type, and the value at which it starts if that is its own."""
        if written.values:
            raise Refusal(
                written.place, "an enumeration without a name: write it between TYPE and END_TYPE, and its name here"
            )
        if written.element is not None:
            return self.array_of(written), None
        key = written.name.upper()
        if written.bounds:
            return self.subrange_of(written, key), None
        if key in ("BOOL", "TIME") or key in WHOLE:
            return Scalar(key), None
        if key in self.names.types:
            return self.names.types[key]
        if key in self.names.blocks:
            return Instance(str(written.name)), None
        raise Refusal(place_of(written.name), f"{written.name} is no type and no block of this text")

    def subrange_of(self, written: TypeOf, key: str) -> Scalar:
        if key not in WHOLE:
            raise Refusal(written.place, f"{written.name} takes no subrange: integer types do")
        low, high = (self.bound(it) for it in written.bounds[0])
        if low > high or low < WHOLE[key][0] or high > WHOLE[key][1]:
            raise Refusal(written.place, f"{low}..{high} is no subrange of {key}")
        return Scalar(key, low, high)

    def array_of(self, written: TypeOf) -> Array:
        low, high = (self.bound(it) for it in written.bounds[0])
        element, initial = self.type_of(written.element)
        if not isinstance(element, Scalar):
            raise Refusal(
                written.element.place,
                "arrays of arrays and of instances are left out: write one array or instance for each",
            )
        if initial is not None:
            raise Refusal(
                written.element.place,
                f"elements that start at {initial.value} are left out: store them in the first scan",
            )
        if low > high or high - low > 255:
            raise Refusal(written.place, f"an array has 1 to 256 elements, and {low}..{high} are {high - low + 1}")
        return Array(low, high, element)

    def bound(self, node: Node) -> int:
        literal = self.constant(node)
        if isinstance(literal.value, bool) or literal.type == "TIME":
            raise Refusal(node.place, "a bound is a number")
        return literal.value

    def initial_of(self, node: Node, type) -> Literal:
        if not isinstance(type, Scalar):
            raise Refusal(
                node.place, "initial values of arrays and instances are left out: store them in the first scan"
            )
        made = self.wanted(node, type.base)
        if not isinstance(made, Literal):
            raise Refusal(node.place, "an initial value is known when the text is translated")
        if type.low is not None and not type.low <= made.value <= type.high:
            raise Refusal(node.place, f"{made.value} lies outside of {type}")
        return made

    def symbols_of(self, of: VarList):
        kind = {
            "VAR": "variable",
            "VAR_INPUT": "input",
            "VAR_OUTPUT": "output",
            "VAR_EXTERNAL": "external",
            "VAR_GLOBAL": "global",
        }[of.kind]
        for declaration in of.declarations:
            type, initial = self.type_of(declaration.type)
            if declaration.initial is not None:
                initial = self.initial_of(declaration.initial, type)
            if kind == "external":
                if declaration.initial is not None and not of.is_constant:
                    raise Refusal(declaration.initial.place, "an external starts at the value of its global")
                initial = None
            for token in declaration.names:
                yield Symbol(self.names.named(token) and str(token), kind, type, initial, place_of(token))

    def take_symbols(self, unit: Unit):
        self.take_constants(unit.lists)
        for of in unit.lists:
            for symbol in self.symbols_of(of) if not (of.is_constant and of.kind == "VAR") else ():
                key = symbol.name.upper()
                if key in self.symbols:
                    raise Refusal(symbol.place, f"{symbol.name} is declared twice")
                if symbol.kind == "external" and key in self.names.constants:
                    continue
                self.symbols[key] = symbol
        if unit.result is not None:
            type, initial = self.type_of(unit.result)
            if initial is not None or not isinstance(type, Scalar):
                raise Refusal(
                    unit.result.place,
                    "a function gives a scalar that starts at its least value or at 0: write its type and range here",
                )
            self.symbols[unit.name.upper()] = Symbol(str(unit.name), "result", type, None, place_of(unit.name))
        if unit.kind == "PROGRAM":
            for name, type in self.names.image.items():
                self.symbols[name] = Symbol(name, "image", type, None, unit.place)

    def symbol(self, node: Variable) -> Symbol:
        found = self.symbols.get(node.name.upper())
        if found is None:
            raise Refusal(node.place, self.unknown(node.name))
        return found

    def unknown(self, name: str) -> str:
        key = name.upper()
        if key in IMAGE and self.names.image:
            return f"{name} is a name of the image: programs see it, functions and blocks take it as an input"
        if key in IMAGE or key in SIZES:
            return f"{name} is unknown without a configuration"
        if key in self.names.globals:
            return f"{name} is a global: list it as VAR_EXTERNAL of the program"
        return f"{name} is unknown here"

    # Expressions

    def constant(self, node: Node) -> Literal:
        made = self.typed(node)
        if not isinstance(made, Literal):
            raise Refusal(node.place, "this is not known when the text is translated")
        return made

    def wanted(self, node: Node, type: str) -> Node:
        """An expression that has this type."""
        made = self.typed(node, type)
        if isinstance(made, Literal) and made.type is None:
            return self.as_type(made, type)
        if made.type != type:
            raise Refusal(node.place, self.clash(made.type, type, node))
        return made

    def as_type(self, literal: Literal, type: str) -> Literal:
        if type not in WHOLE:
            raise Refusal(
                literal.place,
                f"{literal.value} is a number, and {type} is wanted"
                + (": write TRUE or FALSE" if type == "BOOL" else ": write such as T#1s"),
            )
        if not WHOLE[type][0] <= literal.value <= WHOLE[type][1]:
            raise Refusal(literal.place, f"{literal.value} lies outside of {type}")
        return dataclasses.replace(literal, type=type)

    def clash(self, got: str, wanted: str, node: Node) -> str:
        said = f"this is {got}, and {wanted} is wanted"
        if got in WHOLE and wanted in WHOLE:
            said += f": write {got}_TO_{wanted}({self.names.text.source[slice(*node.span)]})"
        return said

    def typed(self, node: Node, hint: str | None = None) -> Node:
        """An expression with its types, in which constants are literals. The hint is the type of numbers that have
        none.
        """
        if isinstance(node, Literal):
            return node
        if isinstance(node, Variable):
            return self.typed_variable(node)
        if isinstance(node, Unary):
            return self.typed_unary(node, hint)
        if isinstance(node, Binary):
            return self.typed_binary(node, hint)
        return self.typed_call(node, hint)

    def typed_variable(self, node: Variable) -> Node:
        key = node.name.upper()
        value = self.loops.get(key) or (
            None if key in self.symbols else self.constants.get(key) or self.names.constants.get(key)
        )
        if value is not None and node.index is None and node.member is None:
            return dataclasses.replace(value, place=node.place, span=node.span)
        symbol = self.symbol(node)
        if node.member is not None:
            return dataclasses.replace(node, type=self.member_type(node, symbol).base)
        if isinstance(symbol.type, Array):
            if node.index is None:
                raise Refusal(
                    node.place,
                    f"{node.name} is an array: write one element of it, such as {node.name}[{symbol.type.low}]",
                )
            return dataclasses.replace(node, index=self.index(node, symbol.type), type=symbol.type.element.base)
        if node.index is not None or isinstance(symbol.type, Instance):
            raise Refusal(
                node.place,
                f"{node.name} is no array"
                if node.index is not None
                else f"{node.name} is an instance: write one of its outputs, such as {node.name}.Q",
            )
        return dataclasses.replace(node, type=symbol.type.base)

    def index(self, node: Variable, type: Array) -> Node:
        index = self.typed(node.index, "INT")
        if index.type is not None and index.type not in WHOLE:
            raise Refusal(node.index.place, f"an index is a number, and this is {index.type}")
        if isinstance(index, Literal) and not type.low <= index.value <= type.high:
            raise Refusal(
                node.index.place,
                f"the index {index.value} lies outside of {node.name}, which has {type.low}..{type.high}",
            )
        return index

    def member_type(self, node: Variable, symbol: Symbol, is_target: bool = False) -> Scalar:
        if not isinstance(symbol.type, Instance):
            raise Refusal(node.place, f"{node.name} is no instance of a block")
        interface = self.names.blocks[symbol.type.block.upper()]
        members = interface.inputs if is_target else interface.outputs
        found = members.get(node.member.upper())
        if found is None:
            what = "input" if is_target else "output"
            raise Refusal(
                node.place,
                f"{node.member} is no {what} of {symbol.type.block}, which has {', '.join(members) or 'none'}",
            )
        return found

    def typed_unary(self, node: Unary, hint: str | None) -> Node:
        if node.operator == "NOT":
            return self.negated(self.wanted(node.value, "BOOL"), node)
        value = self.typed(node.value, hint)
        if value.type == "BOOL" or value.type == "TIME":
            raise Refusal(node.place, f"`-` takes a number, and this is {value.type}")
        zero = Literal(node.place, node.span, 0, value.type)
        return (
            self.folded("-", zero, value, node)
            if isinstance(value, Literal)
            else Binary(node.place, node.span, "-", zero, value, value.type)
        )

    def negated(self, value: Node, node: Node) -> Node:
        if isinstance(value, Literal):
            return dataclasses.replace(value, value=not value.value)
        if isinstance(value, Unary):
            return value.value
        if isinstance(value, Binary) and value.operator in COMPARISONS:
            return dataclasses.replace(value, operator=COMPARISONS[value.operator])
        return Unary(node.place, node.span, "NOT", value, "BOOL")

    def typed_binary(self, node: Binary, hint: str | None) -> Node:
        operator = node.operator
        left, right = self.typed(node.left, hint), self.typed(node.right, hint)
        self.check_operator(node, left.type or right.type)
        if left.type is None and right.type is not None:
            left = self.as_type(left, right.type)
        elif right.type is None and left.type is not None:
            right = self.as_type(right, left.type)
        if left.type != right.type:
            said = f"the sides of `{operator}` are {left.type} and {right.type}"
            if left.type in WHOLE and right.type in WHOLE:
                said += f": write {right.type}_TO_{left.type}({self.names.text.source[slice(*node.right.span)]})"
            raise Refusal(node.place, said)
        if isinstance(left, Literal) and isinstance(right, Literal):
            return self.folded(operator, left, right, node)
        if left.type == "BOOL" and (isinstance(left, Literal) or isinstance(right, Literal)):
            return self.with_truth(operator, *((right, left) if isinstance(left, Literal) else (left, right)), node)
        return dataclasses.replace(node, left=left, right=right, type="BOOL" if operator in COMPARISONS else left.type)

    @staticmethod
    def check_operator(node: Binary, type: str | None):
        operator = node.operator
        if operator in ("AND", "OR", "XOR"):
            if type != "BOOL":
                raise Refusal(node.place, f"`{operator}` takes BOOL: that of bit strings is left out")
        elif operator in ("=", "<>"):
            return
        elif type == "BOOL" or (type == "TIME" and operator in ("*", "/", "MOD")):
            raise Refusal(
                node.place,
                f"`{operator}` of {type} is left out"
                + (": write sums, or count in whole numbers" if type == "TIME" else ": it takes numbers"),
            )

    @staticmethod
    def folded(operator: str, left: Literal, right: Literal, node: Node) -> Literal:
        a, b = left.value, right.value
        if operator in ("/", "MOD") and b == 0:
            raise Refusal(node.place, "a division by 0")
        quotient = (abs(a) // abs(b)) * (1 if (a < 0) == (b < 0) else -1) if operator in ("/", "MOD") else 0
        value = {
            "+": lambda: a + b,
            "-": lambda: a - b,
            "*": lambda: a * b,
            "/": lambda: quotient,
            "MOD": lambda: a - quotient * b,
            "AND": lambda: a and b,
            "OR": lambda: a or b,
            "XOR": lambda: a != b,
            "=": lambda: a == b,
            "<>": lambda: a != b,
            "<": lambda: a < b,
            ">": lambda: a > b,
            "<=": lambda: a <= b,
            ">=": lambda: a >= b,
        }[operator]()
        type = "BOOL" if operator in COMPARISONS else left.type
        low, high = WHOLE.get(type, (0, LONGEST_DURATION) if type == "TIME" else (-(2**31), 2**32 - 1))
        if not low <= value <= high:
            raise Refusal(node.place, f"{value} lies outside of {type or 'all types'}")
        return Literal(node.place, node.span, value, type)

    def with_truth(self, operator: str, value: Node, truth: Literal, node: Node) -> Node:
        """A Boolean operation of which one side is known."""
        if operator in ("AND", "OR"):
            return value if truth.value == (operator == "AND") else dataclasses.replace(truth, place=node.place)
        return self.negated(value, node) if truth.value == (operator in ("XOR", "<>")) else value

    # Calls of functions

    def typed_call(self, node: Call, hint: str | None) -> Node:
        key = node.name.upper()
        for it in node.arguments:
            if it.is_output:
                raise Refusal(it.place, "a function has no outputs: its value is what it gives")
        if key in self.names.functions:
            return self.own_call(node, self.names.functions[key])
        if key not in FUNCTIONS:
            raise Refusal(node.place, self.no_function(node.name))
        given = self.in_order(node, FORMAL.get(key), FUNCTIONS[key])
        if "_TO_" in key:
            return self.conversion(node, key, given)
        if key == "SEL":
            return self.selection(node, given, hint)
        values = self.alike([self.typed(it, hint) for it in given], node, hint)
        if values[0].type == "BOOL" or (values[0].type == "TIME" and key == "ABS"):
            raise Refusal(node.place, f"{key} of {values[0].type} is left out")
        return self.made_call(node, values, values[0].type)

    def made_call(self, node: Call, values: list[Node], type: str) -> Call:
        return dataclasses.replace(node, arguments=[Argument(it.place, it.span, None, it) for it in values], type=type)

    def no_function(self, name: str) -> str:
        key = name.upper()
        if key in INSTEAD:
            return f"{key} is left out: {INSTEAD[key]}"
        if key in self.symbols and isinstance(self.symbols[key].type, Instance):
            return f"{name} is an instance: its call is a statement of its own, and its outputs are such as {name}.Q"
        if "_TO_" in key or key in LEFT_OUT:
            return f"{name} is left out: conversions are between the six integer types, such as INT_TO_DINT"
        return f"{name} is no function of this text"

    def in_order(self, node: Call, formal: list[str] | None, count: int | None) -> list[Node]:
        """The arguments in the order of the inputs."""
        named = [it for it in node.arguments if it.name is not None]
        if named and formal is not None:
            given = {it.name.upper(): it.value for it in named}
            if len(given) != len(node.arguments) or set(given) != set(formal):
                raise Refusal(node.place, f"{node.name} takes {', '.join(formal)}, each once")
            return [given[it] for it in formal]
        if named:
            return [it.value for it in node.arguments]
        if len(node.arguments) != count if count else len(node.arguments) < 2:
            raise Refusal(
                node.place,
                f"{node.name} takes {count or 'two or more'} arguments, and {len(node.arguments)} are given",
            )
        return [it.value for it in node.arguments]

    def alike(self, values: list[Node], node: Call, hint: str | None) -> list[Node]:
        """Values that have one type."""
        type = next((it.type for it in values if it.type is not None), hint if hint in WHOLE else "INT")
        values = [self.as_type(it, type) if it.type is None else it for it in values]
        for it in values:
            if it.type != type:
                raise Refusal(it.place, self.clash(it.type, type, it))
        return values

    def conversion(self, node: Call, key: str, given: list[Node]) -> Node:
        source, target = key.split("_TO_")
        value = self.wanted(given[0], source)
        if isinstance(value, Literal):
            return self.as_type(dataclasses.replace(value, type=None, place=node.place, span=node.span), target)
        return self.made_call(node, [value], target)

    def selection(self, node: Call, given: list[Node], hint: str | None) -> Node:
        choice = self.wanted(given[0], "BOOL")
        values = self.alike([self.typed(it, hint) for it in given[1:]], node, hint)
        if isinstance(choice, Literal):
            return values[choice.value]
        return self.made_call(node, [choice, *values], values[0].type)

    def own_call(self, node: Call, interface: Interface) -> Node:
        given = self.in_order(node, list(interface.inputs), len(interface.inputs))
        return self.made_call(
            node,
            [self.wanted(it, type.base) for it, type in zip(given, interface.inputs.values())],
            interface.result.base,
        )
