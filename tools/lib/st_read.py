"""Reads a text in Structured Text: the grammar is st.lark, and here its nodes are made, and refused is by its name what
the profile leaves out.
"""
import functools, os, re, sys

from lark import Lark, Token, Transformer, v_args
from lark.exceptions import UnexpectedCharacters, UnexpectedEOF, UnexpectedToken, VisitError

from lib.st_tree import (
    LEFT_OUT,
    LONGEST_DURATION,
    SUBRANGE,
    WHOLE,
    Argument,
    Assign,
    Binary,
    Branch,
    Call,
    Case,
    Choice,
    Configuration,
    Declaration,
    For,
    If,
    Invoke,
    Leave,
    Line,
    Literal,
    Node,
    Place,
    Refusal,
    Task,
    Text,
    TypeOf,
    Unary,
    Unit,
    Variable,
    VarList,
    place_of,
)

LITERALS = {
    "D": "DATE",
    "DATE": "DATE",
    "TOD": "TIME_OF_DAY",
    "TIME_OF_DAY": "TIME_OF_DAY",
    "DT": "DATE_AND_TIME",
    "DATE_AND_TIME": "DATE_AND_TIME",
    "STRING": "STRING",
}
DEEPEST = 6000  # calls inside one another: some 1000 operators in a row
MS = {"d": 86_400_000, "h": 3_600_000, "m": 60_000, "s": 1000, "ms": 1}


def number_of(token: Token, digits: str) -> int:
    base, sharp, rest = digits.partition("#")
    if not sharp:
        base, rest = "10", digits
    bare = rest.lstrip("+-")
    if (
        base not in ("2", "8", "10", "16")
        or (base == "10" and sharp)
        or not re.fullmatch(r"[0-9A-Fa-f]+(_[0-9A-Fa-f]+)*", bare)
    ):
        raise Refusal(place_of(token), f"{token} is no number: write decimals, or 2#, 8# or 16# and digits")
    try:
        return int(rest.replace("_", ""), int(base))
    except ValueError:
        raise Refusal(place_of(token), f"{token} is no number: its digits are not those of base {base}") from None


def duration_of(token: Token, parts: str) -> int:
    """The milliseconds of a duration; the last part may have a fraction."""
    found = re.findall(r"(\d+(?:\.\d+)?)(ms|d|h|m|s)_?", parts.lower())
    order = [list(MS).index(unit) for _, unit in found]
    if (
        not found
        or "".join(a + b for a, b in found) != re.sub(r"(?<=[a-z])_", "", parts.lower())
        or order != sorted(set(order))
        or any("." in a for a, _ in found[:-1])
    ):
        raise Refusal(
            place_of(token), f"{token} is no duration: write such as T#1s500ms, with d, h, m, s and ms in this order"
        )
    value = 0
    for digits, unit in found:
        whole, _, fraction = digits.partition(".")
        scaled = int(fraction or "0") * MS[unit]
        if scaled % 10 ** len(fraction):
            raise Refusal(place_of(token), f"{token} is no whole number of milliseconds")
        value += int(whole) * MS[unit] + scaled // 10 ** len(fraction)
    if value > LONGEST_DURATION:
        raise Refusal(place_of(token), f"{token} is longer than {LONGEST_DURATION} ms")
    return value


def left_out(token: Token, what: str, instead: str) -> Refusal:
    return Refusal(place_of(token), f"{what} is left out: {instead}")


def body_of(items) -> list[Node]:
    return [it for it in items if it is not None]


@v_args(meta=True)
class Tree(Transformer):
    """Makes nodes of what the grammar finds."""

    def __init__(self, text: "Text"):
        super().__init__()
        self.text = text

    @staticmethod
    def at(meta) -> tuple[Place, tuple[int, int]]:
        if meta.empty:
            return Place(1, 1), (0, 0)
        length = meta.end_column - meta.column if meta.line == meta.end_line else 1
        return Place(meta.line, meta.column, max(1, length)), (meta.start_pos, meta.end_pos)

    # Literals and expressions

    def number(self, meta, items):
        return Literal(*self.at(meta), number_of(items[0], items[0]), None)

    def truth(self, meta, items):
        return Literal(*self.at(meta), items[0].upper() == "TRUE", "BOOL")

    def typed(self, meta, items):
        token = items[0]
        name, _, rest = token.partition("#")
        kind = name.upper()
        if kind in ("T", "TIME"):
            return Literal(*self.at(meta), duration_of(token, rest), "TIME")
        if kind == "BOOL" and rest.upper() in ("0", "1", "TRUE", "FALSE"):
            return Literal(*self.at(meta), rest.upper() in ("1", "TRUE"), "BOOL")
        if kind in WHOLE:
            value = number_of(token, rest)
            if not WHOLE[kind][0] <= value <= WHOLE[kind][1]:
                raise Refusal(place_of(token), f"{rest} lies outside of {kind}")
            return Literal(*self.at(meta), value, kind)
        if kind in LITERALS or kind in LEFT_OUT:
            word = LITERALS.get(kind, kind)
            raise left_out(token, f"{word}, as in {token},", LEFT_OUT[word])
        return Variable(*self.at(meta), str(token))  # a value of an enumeration

    def binary(self, meta, items):
        left, operator, right = items
        if operator == "**":
            raise left_out(operator, "`**`", "write products, such as X * X")
        word = "AND" if operator == "&" else operator.upper()
        return Binary(place_of(operator), self.at(meta)[1], word, left, right)

    def unary(self, meta, items):
        operator, value = items
        if operator == "-" and isinstance(value, Literal) and value.type is None:
            return Literal(*self.at(meta), -value.value, None)
        return Unary(place_of(operator), self.at(meta)[1], operator.upper(), value)

    def index(self, meta, items):
        if len(items) > 1:
            raise Refusal(
                items[1].place,
                "arrays of two and more dimensions are left out: write one index, such as A[(I - 1) * 8 + J]",
            )
        return ("index", items[0])

    def member(self, meta, items):
        return ("member", items[0])

    def variable(self, meta, items):
        name, *selectors = items
        made = Variable(*self.at(meta), str(name))
        for kind, what in selectors:
            if made.index is not None or made.member is not None:
                raise Refusal(
                    made.place,
                    (
                        "one index or one member may stand behind a name: arrays of instances and members of members "
                        "are left out"
                    ),
                )
            setattr(made, kind, what if kind == "index" else str(what))
        return made

    def call(self, meta, items):
        name, *arguments = items
        return Call(*self.at(meta), str(name), body_of(arguments))

    def given(self, meta, items):
        return Argument(*self.at(meta), None, items[0])

    def given_by_name(self, meta, items):
        if items[0].upper() in ("EN", "ENO"):
            raise left_out(items[0], items[0].upper(), "write IF around the call")
        return Argument(*self.at(meta), str(items[0]), items[2])

    def taken(self, meta, items):
        negated, name, _, target = items
        return Argument(*self.at(meta), str(name), target, True, negated is not None)

    # Statements

    def body(self, meta, items):
        return body_of(items)

    def empty(self, meta, items):
        return None

    def assign(self, meta, items):
        return Assign(*self.at(meta), items[0], items[2])

    def invoke(self, meta, items):
        return Invoke(*self.at(meta), items[0])

    def if_branch(self, meta, items):
        return Branch(*self.at(meta), items[0], items[1])

    elsif_branch = if_branch

    def else_branch(self, meta, items):
        return Branch(*self.at(meta), None, items[0])

    def label(self, meta, items):
        return items[0], items[2] if len(items) == 3 and items[2] is not None else items[0]

    def labels(self, meta, items):
        return Choice(*self.at(meta), list(items), [])

    def case(self, meta, items):
        selector, *rest = items
        otherwise = rest.pop() if rest and isinstance(rest[-1], Branch) else None
        choices: list[Choice] = []
        for it in body_of(rest):
            if isinstance(it, Choice):
                choices.append(it)
            elif choices:
                choices[-1].body.append(it)
            else:
                raise Refusal(it.place, "a statement without a label in front: CASE wants such as `1:`")
        if not choices:
            raise Refusal(self.at(meta)[0], "CASE without a branch")
        return Case(*self.at(meta), selector, choices, otherwise)

    def if_statement(self, meta, items):
        return If(*self.at(meta), body_of(items))

    def for_statement(self, meta, items):
        variable, _, first, last, *by, body = items
        return For(*self.at(meta), variable, first, last, next(iter(body_of(by)), None), body)

    def leave(self, meta, items):
        return Leave(*self.at(meta), items[0].upper())

    exit = continue_ = return_ = leave

    # Types and declarations

    def named(self, meta, items):
        return TypeOf(*self.at(meta), items[0])

    def subrange(self, meta, items):
        return TypeOf(*self.at(meta), items[0], [(items[1], items[3])])

    def bounds(self, meta, items):
        return items[0], items[2]

    def array(self, meta, items):
        *bounds, element = items
        if len(bounds) > 1:
            raise Refusal(
                self.at(meta)[0],
                (
                    "arrays of two and more dimensions are left out: write one dimension, "
                    "and an index such as (I - 1) * 8 + J"
                ),
            )
        return TypeOf(*self.at(meta), None, list(bounds), element)

    def enumerated(self, meta, items):
        return items[0], items[2] if len(items) == 3 else None

    def enumeration(self, meta, items):
        return TypeOf(*self.at(meta), None, values=list(items))

    def array_element(self, meta, items):
        return None

    def array_initial(self, meta, items):
        raise Refusal(self.at(meta)[0], "initial values of arrays are left out: store them in the first scan")

    def declaration(self, meta, items):
        names = [it for it in items if isinstance(it, Token) and it.type == "NAME"]
        type = next(it for it in items if isinstance(it, TypeOf))
        behind = items[items.index(type) + 1 :]
        return Declaration(*self.at(meta), names, type, behind[-1] if behind and behind[-1] is not None else None)

    type_declaration = declaration

    def types(self, meta, items):
        self.text.types += items

    def list(self, meta, items):
        kind, constant, *declarations = items
        if constant is not None and kind.upper() in ("VAR_INPUT", "VAR_OUTPUT"):
            raise Refusal(
                place_of(constant),
                f"CONSTANT stands behind VAR, VAR_GLOBAL or VAR_EXTERNAL, and not behind {kind.upper()}",
            )
        return VarList(*self.at(meta), kind.upper(), constant is not None, declarations)

    def unit(self, kind, meta, items):
        *head, body = items
        name, *lists = head
        result = lists.pop(0) if kind == "FUNCTION" else None
        self.text.units.append(Unit(*self.at(meta), kind, name, result, lists, body))

    def function(self, meta, items):
        self.unit("FUNCTION", meta, items)

    def function_block(self, meta, items):
        self.unit("FUNCTION_BLOCK", meta, items)

    def program(self, meta, items):
        self.unit("PROGRAM", meta, items)

    def task(self, meta, items):
        name, _, interval, _, priority = items
        return Task(*self.at(meta), name, interval, priority)

    def program_line(self, meta, items):
        return Line(*self.at(meta), *items)

    def resource(self, meta, items):
        return items

    def configuration(self, meta, items):
        name, *lists, resource = items
        tasks, lines = ([it for it in resource if isinstance(it, kind)] for kind in (Task, Line))
        self.text.configurations.append(
            Configuration(*self.at(meta), name, lists, resource[0], resource[1], tasks, lines)
        )


def refused_word(token: Token) -> Token:
    """A name as it is, but for a word that the profile leaves out."""
    if (instead := LEFT_OUT.get(token.upper())) is not None:
        raise left_out(token, token.upper(), instead)
    return token


def refused_literal(token: Token) -> Token:
    kinds = {
        "REAL_NUMBER": (f"{token}, a REAL,", SUBRANGE),
        "TEXT": (f"{token}, a STRING,", LEFT_OUT["STRING"]),
        "ADDRESS": (f"the address {token}", LEFT_OUT["AT"]),
    }
    raise left_out(token, *kinds.get(token.type, ("a pragma", "remove it")))


def taken_comment(token: Token) -> Token:
    if token.startswith("(*") and "(*" in token[2:]:
        raise Refusal(place_of(token), "a comment inside a comment is left out")
    comments.append(token)
    return token


comments: list[Token] = []  # of the text that is read


@functools.cache
def parser() -> Lark:
    callbacks = {"COMMENT": taken_comment} | {
        it: refused_literal for it in ("REAL_NUMBER", "TEXT", "ADDRESS", "PRAGMA")
    }
    callbacks["NAME"] = refused_word  # the last, since lark asks for the type of the last one
    with open(os.path.join(os.path.dirname(os.path.abspath(__file__)), "st.lark"), encoding="utf-8") as file:
        return Lark(
            file.read(),
            parser="lalr",
            lexer="basic",
            propagate_positions=True,
            maybe_placeholders=True,
            lexer_callbacks=callbacks,
        )


SHOWN = {
    "NAME": "a name",
    "NUMBER": "a number",
    "TYPED": "a literal",
    "$END": "the end",
    "AND": "`AND`",
    "EQUAL": "`=`",
    "ORDER": "`<`",
    "TIMES": "`*`",
}


def shown(name: str) -> str:
    return SHOWN.get(name) or f"`{parser().get_terminal(name).pattern.value}`"


def tree_of(source: str) -> Text:
    """The tree of a text; a Refusal where it has none."""
    comments.clear()
    sys.setrecursionlimit(max(DEEPEST, sys.getrecursionlimit()))
    text = Text(source, [], [], [], [])
    try:
        Tree(text).transform(parser().parse(source))
    except RecursionError:
        raise Refusal(
            Place(1, 1),
            "an expression has too many operators in a row or inside one another: hold parts of it in variables",
        ) from None
    except VisitError as why:
        raise why.orig_exc from None
    except UnexpectedToken as why:
        hidden = {"REAL_NUMBER", "TEXT", "ADDRESS", "PRAGMA", "COMMENT"}
        could = sorted(shown(it) for it in why.expected - hidden)
        behind = f"; expected: {', '.join(could[:8])}{', ..' if len(could) > 8 else ''}"
        if why.token.type == "$END":
            lines = source.split("\n")
            raise Refusal(Place(len(lines), len(lines[-1]) + 1), f"the text ends here{behind}") from None
        raise Refusal(place_of(why.token), f"an unexpected `{why.token}`{behind}") from None
    except UnexpectedEOF:
        raise Refusal(Place(source.count("\n") + 1, 1), "the text ends here") from None
    except UnexpectedCharacters as why:
        what = (
            "a comment that is never closed"
            if source.startswith("(*", why.pos_in_stream)
            else f"an unexpected character {source[why.pos_in_stream]!r}"
        )
        raise Refusal(Place(why.line, why.column), what) from None
    text.comments = list(comments)
    return text
