"""The instructions of a body in Structured Text, for tools/st.

A condition is jumped over in the forms by which the verifier narrows ranges (docs/LANGUAGE.md, Ranges), wherever the
tested variable's range may count behind it. Operands in the middle of an expression are parenthesised; only an index,
an argument of a function and what is deeper than 16 parentheses take a variable.
"""
import dataclasses, functools
from dataclasses import dataclass, field

from lib.st_names import COMPARISONS, MIRRORED, OUTPUTS, Array, Instance, Scalar, Scope
from lib.st_tree import (
    WHOLE,
    Argument,
    Assign,
    Binary,
    Branch,
    Call,
    Case,
    Choice,
    For,
    If,
    Invoke,
    Leave,
    Literal,
    Node,
    Place,
    Refusal,
    Unary,
    Unit,
    Variable,
    place_of,
)

OPERATORS = {
    "+": "ADD",
    "-": "SUB",
    "*": "MUL",
    "/": "DIV",
    "MOD": "MOD",
    "=": "EQ",
    "<>": "NE",
    "<": "LT",
    ">": "GT",
    "<=": "LE",
    ">=": "GE",
    "AND": "AND",
    "OR": "OR",
    "XOR": "XOR",
}
LOGIC = "AND", "OR", "XOR"
DEEPEST = 16  # parentheses
MOST_TURNS = 4096  # of a loop
LONGEST_LINE = 110


@dataclass
class Label:
    name: str
    uses: int = 0


@dataclass(eq=False)
class Step:
    """An instruction, a label in front of one, or a comment."""

    operator: str  # nothing: a label or a comment
    operand: str = ""
    place: Place | None = None
    goes_to: Label | None = None  # of a jump
    label: Label | None = None
    comment: str = ""
    behind: list[str] = field(default_factory=list)  # comments behind the instruction
    is_pinned: bool = False  # the load or the jump of a test that narrows
    temporaries: dict[str, str] = field(default_factory=dict)  # what they hold, in ST

    @property
    def text(self) -> str:
        target = self.goes_to.name if self.goes_to else self.operand
        return f"{self.operator} {target}" if target else self.operator


@functools.cache
def fields_of(kind: type) -> tuple[str, ...]:
    """The fields of a kind of node that may hold nodes."""
    return tuple(
        it.name
        for it in dataclasses.fields(kind)
        if it.name not in ("place", "span", "name", "type", "operator", "word", "member", "is_output", "is_negated")
    )


def parts(node):
    """The nodes below a node, in the order of the text."""
    if isinstance(node, Node):
        node = [getattr(node, it) for it in fields_of(type(node))]
    for it in node:
        if isinstance(it, Node):
            yield it
        elif isinstance(it, (list, tuple)):
            yield from parts(it)


def ranges_that_count(node, skipped: bool = False):
    """The variables whose range may decide whether a text is accepted, with their places: all that are read but as a
    side of a comparison.
    """
    if isinstance(node, Variable):
        if not skipped and node.index is None and node.member is None:
            yield node.name.upper(), node.span[0]
        yield from ranges_that_count(node.index) if node.index is not None else ()
        return
    compares = isinstance(node, Binary) and node.operator in COMPARISONS
    for it in parts(node):
        is_side = (
            compares
            or (isinstance(node, Case) and it is node.selector)
            or (isinstance(node, Assign) and it is node.target)
        )
        yield from ranges_that_count(it, is_side)


class Body:
    """The instructions of one unit."""

    def __init__(self, unit: Unit, scope: Scope, comments):
        self.unit, self.scope, self.comments = unit, scope, comments
        self.steps: list[Step] = []
        self.before: list[Step] = []  # what has to come before the expression that is written
        self.is_reached = True
        self.exits: list[tuple[Label, Label]] = []  # of the loops around: behind the loop, and behind its turn
        self.loop_start: int | None = None  # where the outermost loop begins
        self.temporaries: dict[str, str] = {}  # all, with their types
        self.used: dict[str, str] = {}  # those of this statement, with what they hold
        self.label_names: set[str] = set()
        self.counted = list(ranges_that_count(unit.body))
        self.controls = {it.variable.upper() for it in loops_of(unit.body)}
        self.statements(unit.body)
        self.comment_lines(comments.before_end(unit))

    # What is written

    def put(self, steps: list[Step]):
        if self.is_reached:
            self.steps += steps

    def step(self, operator: str, operand: str = "", place: Place | None = None, **more) -> Step:
        return Step(operator, operand, place, temporaries=self.used, **more)

    def label(self, what: str, place: Place) -> Label:
        name, count = f"{what}_{place.line}", 1
        while name in self.label_names:
            count += 1
            name = f"{what}_{place.line}_{count}"
        self.label_names.add(name)
        return Label(name)

    def place_label(self, label: Label):
        if label.uses:
            self.steps.append(Step("", label=label))
            self.is_reached = True

    def jump_to(self, label: Label, place: Place, operator: str = "JMP", is_pinned: bool = False):
        if self.is_reached:
            label.uses += 1
            self.put([self.step(operator, place=place, goes_to=label, is_pinned=is_pinned)])
            self.is_reached = operator != "JMP"

    def comment_lines(self, lines: list[str]):
        self.steps += [Step("", comment=it) for it in lines]

    # Expressions

    def operand(self, node: Node) -> str:
        """A variable as an operand; its index is made first where it is neither a number nor a variable."""
        symbol = self.scope.symbol(node)
        self.check_control(node)
        if node.member is not None:
            return f"{symbol.name}.{node.member}"
        return symbol.name if node.index is None else f"{symbol.name}[{self.index(node.index)}]"

    def check_control(self, node: Variable):
        if node.name.upper() in self.controls:
            raise Refusal(
                node.place,
                (
                    f"{node.name} controls a loop, and here is no such loop: what it is behind its loop isn't said, "
                    "so store it inside, in another variable"
                ),
            )

    def index(self, node: Node) -> str:
        if isinstance(node, Literal):
            return str(node.value)
        if isinstance(node, Variable) and node.index is None and node.member is None:
            return self.operand(node)
        return self.held(node)

    def held(self, node: Node) -> str:
        """A variable that holds the value of an expression."""
        steps = self.value(node)
        self.before += steps
        name = next(
            (it for it, type in self.temporaries.items() if type == node.type and it not in self.used), None
        ) or self.new_temporary(node.type)
        self.used[name] = self.source(node)
        self.before.append(self.step("ST", name, node.place))
        return name

    def new_temporary(self, type: str) -> str:
        taken = (
            set(self.scope.symbols) | {it.name.upper() for it in self.scope.names.text.units} | set(self.temporaries)
        )
        name = next(it for count in range(1, 10_000) if (it := f"HELD{count}") not in taken)
        self.temporaries[name] = type
        return name

    def source(self, node: Node) -> str:
        return " ".join(self.scope.names.text.source[slice(*node.span)].split())

    @staticmethod
    def literal(node: Literal, is_bare: bool) -> str:
        if node.type == "BOOL":
            return "TRUE" if node.value else "FALSE"
        if node.type == "TIME":
            return duration(node.value)
        return str(node.value) if is_bare or node.type in (None, "INT") else f"{node.type}#{node.value}"

    def simple(self, node: Node, is_bare: bool = True) -> str | None:
        """An expression that is an operand, as one."""
        if isinstance(node, Literal):
            return self.literal(node, is_bare)
        return self.operand(node) if isinstance(node, Variable) else None

    def argument(self, node: Node, is_bare: bool = True) -> str:
        return self.simple(node, is_bare) or self.held(node)

    def value(self, node: Node, depth: int = 0) -> list[Step]:
        """The instructions that leave the value of an expression as the current result."""
        if isinstance(node, (Literal, Variable)):
            return [self.step("LD", self.simple(node, False), node.place)]
        if isinstance(node, Unary):
            if isinstance(node.value, Variable):
                return [self.step("LDN", self.operand(node.value), node.value.place)]
            return [*self.value(node.value, depth), self.step("NOT", place=node.place)]
        if isinstance(node, Binary):
            return self.binary(node, depth)
        return self.call(node, depth)

    def binary(self, node: Binary, depth: int) -> list[Step]:
        left, right, operator = node.left, node.right, node.operator
        turns = (
            operator in MIRRORED
            and is_plain(left, operator)
            and (not is_plain(right, operator) or isinstance(left, Literal))
        )
        if turns:
            left, right, operator = right, left, MIRRORED[operator]
        return [*self.value(left, depth), *self.applied(OPERATORS[operator], right, depth, node.place)]

    def applied(self, operator: str, right: Node, depth: int, place: Place) -> list[Step]:
        """An operator with its right side."""
        if operator in LOGIC and isinstance(right, Unary):
            operator, right = f"{operator}N", right.value
        if (text := self.simple(right)) is not None:
            return [self.step(operator, text, place)]
        if depth == DEEPEST:
            return [self.step(operator, self.held(right), place)]
        inner = self.value(right, depth + 1)
        opened = self.step(f"{operator}(", "", place)
        if inner[0].operator == "LD":
            opened.operand = inner.pop(0).operand
        return [opened, *inner, self.step(")", place=place)]

    def call(self, node: Call, depth: int) -> list[Step]:
        key, given = node.name.upper(), [it.value for it in node.arguments]
        if key == "LIMIT":
            return self.limit(node, given, depth)
        if key in ("MIN", "MAX"):
            return self.chain(key, given, depth, node.place)
        if key == "SEL":
            others = [self.argument(it, False) for it in given[1:]]
            return [*self.value(given[0], depth), self.step("SEL", ", ".join(others), node.place)]
        others = [self.argument(it) for it in given[1:]]
        return [*self.value(given[0], depth), self.step(node.name, ", ".join(others), node.place)]

    def chain(self, key: str, given: list[Node], depth: int, place: Place) -> list[Step]:
        """MIN or MAX of all: the first that is no operand comes first."""
        first = next((it for it in given if not isinstance(it, (Literal, Variable))), None) or next(
            (it for it in given if isinstance(it, Variable)), given[0]
        )
        steps = self.value(first, depth)
        return steps + [self.step(key, self.argument(it), place) for it in given if it is not first]

    def limit(self, node: Call, given: list[Node], depth: int) -> list[Step]:
        """LIMIT, or where its input is no operand the MAX and MIN that it is."""
        low, value, high = given
        if isinstance(value, (Literal, Variable)):
            others = f"{self.argument(value)}, {self.argument(high)}"
            return [*self.value(low, depth), self.step("LIMIT", others, node.place)]
        low_text, high_text = self.argument(low), self.argument(high)
        return [
            *self.value(value, depth),
            self.step("MAX", low_text, node.place),
            self.step("MIN", high_text, node.place),
        ]

    def flush(self, steps: list[Step]):
        """Puts an expression, behind what has to come before it."""
        before, self.before = self.before, []
        self.put([*before, *steps])

    # Conditions

    def is_needed(self, name: str, node: Node, goes_on: bool) -> bool:
        """Whether the range of a variable may count in a statement, or behind it where the statement leaves."""
        start = node.span[0] if self.loop_start is None else self.loop_start
        end = node.span[1] if not goes_on and self.loop_start is None else len(self.scope.names.text.source)
        return any(name == it and start <= at < end for it, at in self.counted)

    def tested(self, node: Node) -> str | None:
        """The variable of a test by which ranges are narrowed."""
        if isinstance(node, Binary) and node.operator in COMPARISONS:
            left, right = (node.right, node.left) if isinstance(node.left, Literal) else (node.left, node.right)
            if (
                isinstance(right, Literal)
                and isinstance(left, Variable)
                and left.index is None
                and left.member is None
                and left.type != "BOOL"
            ):
                return left.name.upper()
        return None

    def narrows(self, node: Node, needed) -> bool:
        """Whether a condition has a test whose narrowing may count."""
        if isinstance(node, Unary):
            return self.narrows(node.value, needed)
        if isinstance(node, Binary) and node.operator in ("AND", "OR"):
            return self.narrows(node.left, needed) or self.narrows(node.right, needed)
        name = self.tested(node)
        return name is not None and needed(name)

    def jump(self, node: Node, label: Label, when: bool, needed):
        """Goes to the label where the condition is `when`, and on where it isn't."""
        if isinstance(node, Unary):
            return self.jump(node.value, label, not when, needed)
        if isinstance(node, Binary) and node.operator in ("AND", "OR") and self.narrows(node, needed):
            return self.jump_by_parts(node, label, when, needed)
        is_test = self.narrows(node, needed)
        steps = self.value(node)
        steps[0].is_pinned = is_test
        self.flush(steps)
        self.jump_to(label, node.place, "JMPC" if when else "JMPCN", is_test)

    def jump_by_parts(self, node: Binary, label: Label, when: bool, needed):
        """A condition whose parts are jumped over one by one; those that narrow nothing stay together."""
        groups = []
        for it in flat(node, node.operator):
            if groups and not self.narrows(it, needed) and not self.narrows(groups[-1], needed):
                groups[-1] = Binary(node.place, (groups[-1].span[0], it.span[1]), node.operator, groups[-1], it, "BOOL")
            else:
                groups.append(it)
        if (node.operator == "AND") == (not when):
            for it in groups:
                self.jump(it, label, when, needed)
            return
        past = self.label("PAST", node.place)
        for it in groups[:-1]:
            self.jump(it, past, not when, needed)
        self.jump(groups[-1], label, when, needed)
        self.place_label(past)

    # Statements

    def statements(self, body: list[Node]):
        for at, it in enumerate(body):
            leading, trailing = self.comments.of(it)
            if self.is_reached:
                self.comment_lines(leading)
            self.used = {}
            start = len(self.steps)
            simple = isinstance(it, (Assign, Invoke, Leave))
            if not simple and self.is_reached:
                self.comment_lines(trailing)
            self.statement(it)
            written = [step for step in self.steps[start:] if step.operator]
            if simple and written:
                written[-1].behind += trailing
            if isinstance(it, Leave) and at + 1 < len(body):
                raise Refusal(body[at + 1].place, f"nothing leads here, behind {it.word}")

    def statement(self, node: Node):
        kinds = {
            Assign: self.assign,
            Invoke: self.invoke_statement,
            If: self.if_statement,
            Case: self.case,
            For: self.for_statement,
            Leave: self.leave,
        }
        kinds[type(node)](node)

    def target_type(self, node: Variable) -> str:
        """The type of what is stored into; a Refusal where nothing is."""
        key = node.name.upper()
        if key in self.scope.loops:
            raise Refusal(node.place, f"{node.name} controls this loop: it is not stored into")
        if key not in self.scope.symbols and (key in self.scope.constants or key in self.scope.names.constants):
            raise Refusal(node.place, f"{node.name} is a constant")
        symbol = self.scope.symbol(node)
        self.check_control(node)
        if symbol.kind == "input" or (symbol.kind == "image" and key not in OUTPUTS):
            raise Refusal(
                node.place,
                f"{node.name} is only read: it is an input" + (" of the image" if symbol.kind == "image" else ""),
            )
        if node.member is not None:
            return self.scope.member_type(node, symbol, True).base
        return self.scope.typed_variable(node).type

    def target(self, node: Variable) -> tuple[str, Variable]:
        """What is stored into, as an operand and as an expression."""
        if node.index is None:
            return self.operand(node), node
        typed = self.scope.typed_variable(node)
        return self.operand(typed), typed

    def assign(self, node: Assign):
        value = self.scope.wanted(node.value, self.target_type(node.target))
        self.store(value, node.target)

    def store(self, value: Node, target: Variable):
        text, _ = self.target(target)
        if value.type == "BOOL" and (kept := self.set_or_reset(value, text)):
            operator, condition = kept
            return self.flush([*self.value(condition), self.step(operator, text, target.place)])
        if isinstance(value, Unary) and not isinstance(value.value, Variable):
            return self.flush([*self.value(value.value), self.step("STN", text, target.place)])
        self.flush([*self.value(value), self.step("ST", text, target.place)])

    def set_or_reset(self, value: Node, text: str):
        """`X OR ..` into X sets it, and `X AND NOT ..` resets it."""
        if not isinstance(value, Binary) or value.operator not in ("AND", "OR") or "[" in text or "." in text:
            return None
        for one, other in ((value.left, value.right), (value.right, value.left)):
            if (
                isinstance(one, Variable)
                and one.index is None
                and one.member is None
                and one.name.upper() == text.upper()
            ):
                if value.operator == "OR":
                    return "S", other
                if isinstance(other, Unary):
                    return "R", other.value
        return None

    def invoke_statement(self, node: Invoke):
        before, steps, after = self.invocation(node.call)
        self.flush([*before, *steps])
        for it, member in after:
            text, _ = self.target(it.value)
            self.flush([self.step("LDN" if it.is_negated else "LD", member, it.place), self.step("ST", text, it.place)])

    def invocation(self, call: Call):
        """A call of a block: what comes before it, the call, and the outputs that are taken behind it, in their
        order.
        """
        block, interface = self.block_of(call)
        given, before, after, seen = [], [], [], set()
        for position, it in enumerate(call.arguments):
            name = it.name or (list(interface.inputs)[position] if position < len(interface.inputs) else "")
            type = (interface.outputs if it.is_output else interface.inputs).get(name.upper())
            if type is None or name.upper() in seen:
                raise Refusal(
                    it.place,
                    (
                        f"{name or 'this'} is no {'output' if it.is_output else 'input'} of {block.type}, "
                        f"or is given twice; it has {', '.join([*interface.inputs, *interface.outputs])}"
                    ),
                )
            seen.add(name.upper())
            if it.is_output:
                self.output(it, type, f"{block.name}.{name}", given, after)
            else:
                self.input(it, type, f"{block.name}.{name}", name, given, before)
        operand = block.name + (f"({wrapped(block.name, given)})" if given else "")
        return before, [self.step("CAL", operand, call.place)], after

    def block_of(self, call: Call):
        symbol = self.scope.symbols.get(call.name.upper())
        if symbol is None or not isinstance(symbol.type, Instance):
            is_function = (
                call.name.upper() in self.scope.names.functions
                or symbol is None
                and call.name.upper() not in self.scope.names.blocks
            )
            why = (
                "no instance of a block"
                if not is_function
                else "no instance of a block: a function's value is stored, such as X := F(Y)"
            )
            raise Refusal(call.place, f"{call.name} is {why}")
        return symbol, self.scope.names.blocks[symbol.type.block.upper()]

    def input(self, it: Argument, type: Scalar, member: str, name: str, given: list[str], before: list[Step]):
        value = self.scope.wanted(it.value, type.base)
        if (text := self.simple(value)) is not None:
            given.append(f"{name} := {text}")
        elif isinstance(value, Unary):
            before += [*self.value(value.value), self.step("STN", member, it.place)]
        else:
            before += [*self.value(value), self.step("ST", member, it.place)]

    def output(self, it: Argument, type: Scalar, member: str, given: list[str], after: list[tuple[Argument, str]]):
        target_type = self.target_type(it.value)
        if target_type != type.base:
            raise Refusal(it.place, self.scope.clash(type.base, target_type, it))
        if after or it.is_negated or it.value.index is not None or it.value.member is not None:
            after.append((it, member))
        else:
            given.append(f"{it.name} => {self.operand(it.value)}")

    def leave(self, node: Leave):
        if node.word == "RETURN":
            self.put([self.step("RET", place=node.place)])
            self.is_reached = False
        elif not self.exits:
            raise Refusal(node.place, f"{node.word} outside of a loop")
        else:
            behind, turn = self.exits[-1]
            self.jump_to(behind if node.word == "EXIT" else turn, node.place)

    # IF

    def if_statement(self, node: If):
        branches = self.possible(node)
        if not branches:
            return
        goes_on = any(leaves(it.body) for it in branches)
        needed = lambda name: self.is_needed(name, node, goes_on)
        start = len(self.steps)
        if (
            branches[0].condition is not None
            and not self.narrows(branches[0].condition, needed)
            and self.short_form(branches)
        ):
            self.steps[start:start] = [Step("", comment=it) for it in self.comments.inside(node)]
            return
        end = self.label("END_IF", node.place)
        for at, it in enumerate(branches):
            behind = self.label("ELSE", it.place)
            self.branch_comments(it)
            if it.condition is not None:
                self.used = {}
                self.jump(it.condition, behind, False, needed)
            self.statements(it.body)
            if at + 1 < len(branches):
                self.jump_to(end, it.place)
            self.place_label(behind)
        self.place_label(end)

    def branch_comments(self, node: Node):
        leading, trailing = self.comments.of(node)
        if self.is_reached:
            self.comment_lines(leading + trailing)

    def possible(self, node: If) -> list[Branch]:
        """The branches that may be taken, with the types of their conditions; the first that always is ends them."""
        found = []
        for it in node.branches:
            if it.condition is None:
                return [*found, it]
            condition = self.scope.wanted(it.condition, "BOOL")
            if not isinstance(condition, Literal):
                found.append(dataclasses.replace(it, condition=condition))
            elif condition.value:
                return [*found, dataclasses.replace(it, condition=None)]
        return found if found and found[0].condition is not None else []

    def short_form(self, branches: list[Branch]) -> bool:
        """S, R, CALC and SEL in place of jumps. Says whether one of them was written."""
        first = branches[0]
        has_else = len(branches) == 2 and branches[1].condition is None
        if len(branches) == 1 and first.body and all(self.is_truth(it) for it in first.body):
            return self.set_all(first)
        if len(branches) == 1 and len(first.body) == 1 and isinstance(first.body[0], Invoke):
            return self.conditional_call(first)
        if (
            len(first.body) != 1
            or not isinstance(first.body[0], Assign)
            or len(branches) > 2
            or (len(branches) == 2 and not has_else)
        ):
            return False
        if has_else and (len(branches[1].body) != 1 or not isinstance(branches[1].body[0], Assign)):
            return False
        return self.selected(first, branches[1].body[0] if has_else else None)

    def is_truth(self, node: Node) -> bool:
        """Whether a statement stores TRUE or FALSE at a place that needs no index of its own."""
        if not isinstance(node, Assign) or self.target_type(node.target) != "BOOL":
            return False
        return isinstance(self.scope.wanted(node.value, "BOOL"), Literal) and self.is_at_hand(node.target)

    def is_at_hand(self, node: Node) -> bool:
        """Whether an expression is an operand without an index of its own."""
        if isinstance(node, Variable) and node.index is not None:
            index = self.scope.typed(node.index, "INT")
            return isinstance(index, Literal) or (
                isinstance(index, Variable) and index.index is None and index.member is None
            )
        return isinstance(node, (Literal, Variable))

    def set_all(self, branch: Branch) -> bool:
        steps = self.value(branch.condition)
        for it in branch.body:
            value = self.scope.wanted(it.value, "BOOL").value
            steps.append(self.step("S" if value else "R", self.target(it.target)[0], it.target.place))
        self.flush(steps)
        return True

    def conditional_call(self, branch: Branch) -> bool:
        before, steps, after = self.invocation(branch.body[0].call)
        if before or after or self.before:
            self.before = []
            return False
        condition = self.value(branch.condition)
        operator = "CALC"
        if isinstance(branch.condition, Unary) and not isinstance(branch.condition.value, Variable):
            condition, operator = self.value(branch.condition.value), "CALCN"
        steps[0].operator = operator
        self.flush([*condition, *steps])
        return True

    def selected(self, branch: Branch, other: Assign | None) -> bool:
        """An assignment of one of two operands to one place."""
        one = branch.body[0]
        type = self.target_type(one.target)
        if (
            not self.is_at_hand(one.target)
            or one.target.member is not None
            or (other and self.source(other.target).upper() != self.source(one.target).upper())
        ):
            return False
        yes, no = self.scope.wanted(one.value, type), self.scope.wanted(other.value, type) if other else None
        if no is None and (type == "BOOL" or one.target.index is not None):
            return False
        if not self.is_at_hand(yes) or not (no is None or self.is_at_hand(no)):
            return False
        condition = branch.condition
        if type == "BOOL" and isinstance(yes, Literal) and isinstance(no, Literal) and yes.value != no.value:
            self.store(condition if yes.value else self.scope.negated(condition, condition), one.target)
            return True
        text = self.target(one.target)[0]
        words = (self.simple(no, False) if no else text), self.simple(yes, False)
        if isinstance(condition, Unary):
            condition, words = condition.value, words[::-1]
        self.flush(
            [
                *self.value(condition),
                self.step("SEL", ", ".join(words), one.place),
                self.step("ST", text, one.target.place),
            ]
        )
        return True

    # CASE

    def case(self, node: Case):
        selector = self.scope.typed(node.selector, "INT")
        if selector.type not in WHOLE and selector.type is not None:
            raise Refusal(node.selector.place, f"CASE takes a number, and this is {selector.type}")
        choices = self.choices(node, selector.type)
        if isinstance(selector, Literal):
            return self.known_case(node, selector.value, choices)
        text = self.argument(selector)
        self.flush([])
        left = self.range_of(selector)
        name = text.upper() if "[" not in text and "." not in text else ""
        goes_on = any(leaves(it.body) for it in [*node.choices, *([node.otherwise] if node.otherwise else [])])
        is_needed = bool(name) and self.is_needed(name, node, goes_on)
        end = self.label("END_CASE", node.place)
        for at, (choice, labels) in enumerate(choices):
            self.branch_comments(choice)
            behind = self.label("CASE", choice.place)
            left = self.choose(text, labels, left, behind, choice.place, is_needed)
            self.statements(choice.body)
            if not behind.uses:  # the selector has one of these labels anyway
                break
            if at + 1 < len(choices) or node.otherwise:
                self.jump_to(end, choice.place)
            self.place_label(behind)
        else:
            if node.otherwise:
                self.branch_comments(node.otherwise)
                self.statements(node.otherwise.body)
        self.place_label(end)

    def range_of(self, node: Node) -> tuple[int, int]:
        """The declared range of a selector."""
        if isinstance(node, Variable) and node.member is None:
            type = self.scope.symbol(node).type
            return (type.element if isinstance(type, Array) else type).range
        return WHOLE[node.type]

    def labels(self, choice: Choice, type: str) -> list[tuple[int, int]]:
        """The labels of a branch, as ranges in the order of the text; neighbours are one."""
        found: list[tuple[int, int]] = []
        for one, other in choice.labels:
            low, high = self.scope.bound(one), self.scope.bound(other)
            if low > high:
                raise Refusal(one.place, f"{low}..{high} is no range")
            if type in WHOLE and not WHOLE[type][0] <= low <= high <= WHOLE[type][1]:
                raise Refusal(
                    one.place,
                    f"{low}..{high} lies outside of {type}" if low != high else f"{low} lies outside of {type}",
                )
            if found and found[-1][1] + 1 == low:
                found[-1] = (found[-1][0], high)
            else:
                found.append((low, high))
        return found

    def choices(self, node: Case, type: str) -> list[tuple[Choice, list[tuple[int, int]]]]:
        """The branches with their labels; no number stands in two."""
        found: list[tuple[Choice, list[tuple[int, int]]]] = []
        for choice in node.choices:
            labels = self.labels(choice, type)
            if any(low <= b and a <= high for low, high in labels for _, earlier in found for a, b in earlier):
                raise Refusal(choice.place, "a label that stands in an earlier branch too")
            found.append((choice, labels))
        return found

    def known_case(self, node: Case, value: int, choices):
        for choice, labels in choices:
            if any(low <= value <= high for low, high in labels):
                return self.statements(choice.body)
        return self.statements(node.otherwise.body) if node.otherwise else None

    def choose(
        self, text: str, labels, left: tuple[int, int], behind: Label, place: Place, is_needed: bool
    ) -> tuple[int, int]:
        """Jumps behind a branch where the selector has none of its labels. Says in which range it then lies."""
        here = self.label("CASE_BODY", place)
        for at, (low, high) in enumerate(labels):
            is_last = at + 1 == len(labels)
            if low <= left[0] and left[1] <= high and is_last:
                break
            if low == high:
                self.compare(
                    text,
                    "EQ",
                    low,
                    here if not is_last else behind,
                    "JMPC" if not is_last else "JMPCN",
                    place,
                    is_needed,
                )
            elif is_last:
                self.outside(text, low, high, left, behind, place, is_needed)
            else:
                past = self.label("CASE_PART", place)
                self.outside(text, low, high, left, past, place, is_needed)
                self.jump_to(here, place)
                self.place_label(past)
            left = (high + 1 if low <= left[0] <= high else left[0], low - 1 if low <= left[1] <= high else left[1])
        self.place_label(here)
        return left

    def outside(
        self, text: str, low: int, high: int, left: tuple[int, int], label: Label, place: Place, is_needed: bool
    ):
        """Goes to a label where the selector lies outside of a range."""
        if low > left[0]:
            self.compare(text, "LT", low, label, "JMPC", place, is_needed)
        if high < left[1]:
            self.compare(text, "GT", high, label, "JMPC", place, is_needed)

    def compare(self, text: str, operator: str, number: int, label: Label, jump: str, place: Place, is_needed: bool):
        self.put([self.step("LD", text, place, is_pinned=is_needed), self.step(operator, str(number), place)])
        self.jump_to(label, place, jump, is_needed)

    # FOR

    def for_statement(self, node: For):
        key = node.variable.upper()
        symbol = self.scope.symbols.get(key)
        if (
            symbol is None
            or symbol.kind != "variable"
            or not isinstance(symbol.type, Scalar)
            or symbol.type.base not in WHOLE
            or key in self.scope.loops
        ):
            raise Refusal(
                place_of(node.variable),
                f"{node.variable} is no variable of an integer type, declared in VAR, that is free here",
            )
        behind = self.label("END_FOR", node.place)
        outermost = self.loop_start is None
        self.loop_start = node.span[0] if outermost else self.loop_start
        for value in self.turns(node, symbol.type):
            turn = self.label("NEXT", node.place)
            self.scope.loops[key] = Literal(node.place, node.span, value, symbol.type.base)
            self.exits.append((behind, turn))
            self.statements(node.body)
            self.exits.pop()
            self.place_label(turn)
        self.scope.loops.pop(key, None)
        self.loop_start = None if outermost else self.loop_start
        self.place_label(behind)

    def turns(self, node: For, type: Scalar) -> range:
        """The values of the control variable."""
        first, last, by = (self.bound(it) for it in (node.first, node.last, node.by))
        if by == 0:
            raise Refusal(node.by.place, "BY 0 never ends")
        values = range(first, last + (1 if by > 0 else -1), by)
        if len(values) > MOST_TURNS:
            raise Refusal(node.place, f"{len(values)} turns: a unit has {MOST_TURNS} instructions at most")
        low, high = type.range
        if values and not (low <= min(values) and max(values) <= high):
            raise Refusal(
                node.place, f"{node.variable} has {low}..{high}, and the loop goes from {values[0]} to {values[-1]}"
            )
        return values

    def bound(self, node: Node | None) -> int:
        if node is None:
            return 1
        try:
            return self.scope.bound(node)
        except Refusal as why:
            raise Refusal(
                why.place,
                (
                    "the bounds of FOR are known when the text is translated: write constants, "
                    "and leave the loop early by EXIT"
                ),
            ) from None


def loops_of(node):
    for it in parts(node):
        if isinstance(it, For):
            yield it
        yield from loops_of(it)


def flat(node: Node, operator: str) -> list[Node]:
    """The parts of a chain of one operator."""
    return (
        [*flat(node.left, operator), *flat(node.right, operator)]
        if isinstance(node, Binary) and node.operator == operator
        else [node]
    )


def is_plain(node: Node, operator: str) -> bool:
    """Whether an expression is an operand; of a Boolean operation also a negated one."""
    return isinstance(node, (Literal, Variable)) or (
        operator in LOGIC and isinstance(node, Unary) and isinstance(node.value, Variable)
    )


def leaves(body: list[Node]) -> bool:
    """Whether some statement of a body leaves it."""
    return any(
        isinstance(it, Leave) or isinstance(it, (If, Case, For, Branch, Choice)) and leaves(list(parts(it)))
        for it in body
    )


def duration(value: int) -> str:
    text = ""
    for unit, size in (("d", 86_400_000), ("h", 3_600_000), ("m", 60_000), ("s", 1000), ("ms", 1)):
        count, value = divmod(value, size)
        text += f"{count}{unit}" if count else ""
    return f"T#{text or '0s'}"


def wrapped(name: str, given: list[str]) -> str:
    """The arguments of a call, in several lines where one would be long."""
    lines = [""]
    for at, it in enumerate(given):
        word = it + (", " if at + 1 < len(given) else "")
        if len(lines[-1]) + len(word) + (len(name) + 5 if len(lines) == 1 else 2) > LONGEST_LINE:
            lines.append("")
        lines[-1] += word
    return "\n  ".join(it.rstrip() for it in lines)
