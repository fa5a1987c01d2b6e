"""A whole text of Instruction List from one in Structured Text, for tools/st, with the place in ST of each line and the
comments at their places.
"""
import re
from dataclasses import dataclass, field

from lib.st_code import Body, Step, parts
from lib.st_names import SIZES, Names, Scope, Symbol
from lib.st_short import shortened
from lib.st_tree import (
    Assign,
    Branch,
    Choice,
    Configuration,
    Declaration,
    Invoke,
    Leave,
    Node,
    Place,
    Refusal,
    Task,
    Text,
    Unit,
    VarList,
)
from lib.st_tree import Case, For, If, Line as ProgramLine

MOST_INSTRUCTIONS = 4096
LISTS = {
    "FUNCTION": ["VAR_INPUT", "VAR"],
    "FUNCTION_BLOCK": ["VAR_INPUT", "VAR_OUTPUT", "VAR"],
    "PROGRAM": ["VAR", "VAR_EXTERNAL"],
}
INSTEAD = {
    ("FUNCTION", "VAR_OUTPUT"): "a function has no outputs: write a function block",
    ("FUNCTION", "VAR_EXTERNAL"): "functions see no globals: give them an input",
    ("FUNCTION_BLOCK", "VAR_EXTERNAL"): "function blocks see no globals: give them an input",
    ("PROGRAM", "VAR_INPUT"): "programs have no inputs: write VAR or VAR_EXTERNAL",
    ("PROGRAM", "VAR_OUTPUT"): "programs have no outputs: write VAR or VAR_EXTERNAL",
}
ANCHORS = Declaration, Unit, Configuration, Task, ProgramLine, Assign, Invoke, Leave, If, Case, For, Branch, Choice


@dataclass
class Line:
    """A line of the text that is made."""

    text: str
    place: Place | None = None
    temporaries: dict[str, str] = field(default_factory=dict)


def key_of(node: Node):
    return type(node).__name__, node.span


class Comments:
    """The comments of a text, each beside what it stands at: behind it in its line, or above it."""

    def __init__(self, text: Text):
        self.text, self.rows = text, text.source.split("\n")
        self.leading: dict = {}
        self.trailing: dict = {}
        self.at_end: dict = {}  # those behind the last statement of a unit, and behind all units
        anchors = sorted(anchors_of([text.types, text.units, text.configurations]), key=lambda it: it.span[0])
        for token in text.comments:
            self.take(token, anchors)
        for it in anchors:
            if isinstance(it, (Assign, Invoke, Leave, If, Case, For)) and self.has_blank_above(
                it.place.line, it.place.column
            ):
                self.leading.setdefault(key_of(it), [""])

    def take(self, token, anchors: list[Node]):
        at, source = token.start_pos, self.text.source
        line_start = source.rfind("\n", 0, at) + 1
        is_behind = bool(re.sub(r"\(\*.*?\*\)", "", source[line_start:at]).strip())
        before = [it for it in anchors if it.span[0] <= at]
        after = next((it for it in anchors if it.span[0] > at), None)
        unit = next((it for it in self.text.units if it.span[0] < at < it.span[1]), None)
        lines = ([""] if not is_behind and self.has_blank_above(token.line, token.column) else []) + [self.plain(token)]
        if is_behind and before:
            self.trailing.setdefault(key_of(before[-1]), []).extend(lines)
        elif unit is not None and (after is None or after.span[0] >= unit.span[1]):
            self.at_end.setdefault(key_of(unit), []).extend(lines)
        elif after is not None:
            self.leading.setdefault(key_of(after), []).extend(lines)
        else:
            self.at_end.setdefault(None, []).extend(lines)

    def has_blank_above(self, line: int, column: int) -> bool:
        """Whether a place is the first of its line, and the line above is blank."""
        return line > 1 and not self.rows[line - 2].strip() and not self.rows[line - 1][: column - 1].strip()

    @staticmethod
    def plain(token) -> str:
        """A comment in the form and the characters of Instruction List, without the indentation of its place."""
        text = str(token).replace("\r", "")
        if text.startswith("//"):
            inner = text[2:].strip().replace("(*", "( *").replace("*)", "* )")
            text = f"(* {inner} *)"
        indent = token.column - 1
        lines = text.split("\n")
        lines = [
            lines[0],
            *(
                it[len(it) - len(it.lstrip()) :] if len(it) - len(it.lstrip()) < indent else it[indent:]
                for it in lines[1:]
            ),
        ]
        return "\n".join("".join(c if " " <= c <= "~" or c == "\t" else "?" for c in it) for it in lines)

    def of(self, node: Node) -> tuple[list[str], list[str]]:
        """What stands above a node, and behind it; each once."""
        return self.leading.pop(key_of(node), []), self.trailing.pop(key_of(node), [])

    def inside(self, node: Node) -> list[str]:
        """What stands at the nodes below one."""
        found = []
        for it in anchors_of(parts(node)):
            above, behind = self.of(it)
            found += [line for line in above + behind if line]
        return found

    def before_end(self, node: Node | None) -> list[str]:
        return self.at_end.pop(key_of(node) if node is not None else None, [])


def anchors_of(node):
    for it in parts(list(node)) if not isinstance(node, Node) else parts(node):
        if isinstance(it, If):  # its first branch begins where it does
            yield it
            for branch in it.branches:
                if branch.span[0] != it.span[0]:
                    yield branch
                yield from anchors_of(branch)
            continue
        if isinstance(it, ANCHORS):
            yield it
        yield from anchors_of(it)


class Maker:
    """Makes the lines of a text."""

    def __init__(self, text: Text):
        self.text = text
        self.comments = Comments(self.text)
        self.names = Names(self.text)
        self.lines: list[Line] = []
        self.types()
        self.units: dict[str, list[Line]] = {}  # the lines of each unit
        for unit in self.text.units:
            start = len(self.lines)
            self.unit(unit)
            self.units[unit.name.upper()] = self.lines[start:]
        if len(self.text.configurations) > 1:
            raise Refusal(self.text.configurations[1].place, "a text has one configuration")
        for configuration in self.text.configurations:
            self.configuration(configuration)
        self.put_comments(self.comments.before_end(None))

    # Lines

    def put(self, text: str, place: Place | None = None, behind: list[str] = (), temporaries=None):
        text += "".join(f"  {it}" for it in behind if it)
        for it in text.split("\n"):
            self.lines.append(Line(it, place, temporaries or {}))

    def put_comments(self, comments: list[str]):
        for it in comments:
            if it or (self.lines and self.lines[-1].text):
                self.put(it)

    def blank(self):
        if self.lines and self.lines[-1].text:
            self.put("")

    # Types and declarations

    def types(self):
        for it in self.text.types:
            above, behind = self.comments.of(it)
            self.put_comments(above)
            name = it.names[0]
            values = [
                f"{token} is {self.names.constants[f'{name.upper()}#{token.upper()}'].value}"
                for token, _ in it.type.values
            ]
            meaning = f"{name} is {self.names.types[name.upper()][0]}" + (f": {', '.join(values)}" if values else "")
            self.put(f"(* {meaning} *)", it.place, behind)

    def constants(self, lists: list[VarList], values) -> None:
        """Says what constants are: they stand in the text by their values alone."""
        for of in lists:
            for it in of.declarations if of.is_constant and of.kind != "VAR_EXTERNAL" else ():
                above, behind = self.comments.of(it)
                self.put_comments(above)
                known = [
                    f"{token} is {Body.literal(values[token.upper()], True)}"
                    for token in it.names
                    if token.upper() not in SIZES
                ]
                if known:
                    self.put(f"(* {', '.join(known)} *)", it.place, behind)

    def declaration(self, it: Declaration, symbols: dict[str, Symbol], left_out: set[str], names: Names):
        above, behind = self.comments.of(it)
        kept = [str(token) for token in it.names if token.upper() not in left_out and token.upper() in symbols]
        if not kept:
            return
        self.put_comments([it and f"  {it}" for it in above])
        symbol = symbols[kept[0].upper()]
        initial = f" := {Body.literal(symbol.initial, True)}" if symbol.initial is not None else ""
        self.put(f"  {', '.join(kept)} : {symbol.type}{initial};", it.place, behind)

    def list(self, kind: str, lists: list[VarList], symbols: dict[str, Symbol], left_out: set[str], more=()):
        """One list of a kind, of all of this kind."""
        declarations = [
            it
            for of in lists
            if of.kind == kind and not (of.is_constant and kind != "VAR_EXTERNAL")
            for it in of.declarations
        ]
        start = len(self.lines)
        for it in declarations:
            self.declaration(it, symbols, left_out, self.names)
        if (
            not any(it.text.startswith("  ") and it.text.rstrip().find(" : ") > 0 for it in self.lines[start:])
            and not more
        ):
            return
        self.lines.insert(start, Line(kind, next((of.place for of in lists if of.kind == kind), None)))
        for name, type, held in more:
            self.put(f"  {name} : {type};")
        self.put("END_VAR")

    # Units

    def unit(self, unit: Unit):
        above, behind = self.comments.of(unit)
        self.blank()
        self.put_comments(above)
        scope = Scope(self.names)
        scope.take_symbols(unit)
        for of in unit.lists:
            if of.kind not in LISTS[unit.kind]:
                raise Refusal(of.place, INSTEAD.get((unit.kind, of.kind), f"{of.kind} stands in a configuration"))
        body = Body(unit, scope, self.comments)
        own = {name for name, it in scope.symbols.items() if it.kind == "variable"} | body.temporaries.keys()
        steps = shortened(body.steps, own)
        count = sum(bool(it.operator) for it in steps)
        if count > MOST_INSTRUCTIONS:
            raise Refusal(
                unit.place,
                (
                    f"{count} instructions, and a unit has {MOST_INSTRUCTIONS} at most: "
                    "put what is repeated into a function block"
                ),
            )
        result = f" : {scope.symbols[unit.name.upper()].type}" if unit.kind == "FUNCTION" else ""
        self.constants([of for of in unit.lists if of.kind == "VAR"], scope.constants)
        self.put(f"{unit.kind} {unit.name}{result}", unit.place, behind)
        more = [(name, type, "") for name, type in body.temporaries.items()]
        for kind in LISTS[unit.kind]:
            self.list(kind, unit.lists, scope.symbols, body.controls, more if kind == "VAR" else ())
        for it in steps:
            self.step(it)
        end = self.text.source.count("\n", 0, unit.span[1]) + 1
        self.put(f"END_{unit.kind}", Place(end, 1, 4 + len(unit.kind)))

    def step(self, it: Step):
        if it.label is not None:
            self.put(f"{it.label.name}:")
        elif not it.operator:
            self.put_comments([it.comment])
        else:
            self.put(it.text, it.place, it.behind, it.temporaries)

    # The configuration

    def configuration(self, it: Configuration):
        above, behind = self.comments.of(it)
        self.blank()
        self.put_comments(above)
        for of in it.lists:
            if of.kind != "VAR_GLOBAL":
                raise Refusal(of.place, "a configuration has VAR_GLOBAL alone")
        for name in SIZES:
            if name not in self.names.constants:
                raise Refusal(it.place, f"{name} is missing: VAR_GLOBAL CONSTANT has CARS, FLOORS and SLOTS")
        self.constants(it.lists, self.names.constants)
        self.put(f"CONFIGURATION {it.name}", it.place, behind)
        sizes = " ".join(f"{name} : INT := {self.names.constants[name].value};" for name in SIZES)
        self.put(f"VAR_GLOBAL CONSTANT {sizes} END_VAR", it.place)
        self.list("VAR_GLOBAL", it.lists, self.names.globals, set())
        self.put(f"RESOURCE {it.resource} ON {it.processor}", it.place)
        for task in it.tasks:
            self.task(task)
        for line in it.lines:
            above, behind = self.comments.of(line)
            self.put_comments(above)
            self.put(f"PROGRAM {line.name} WITH {line.task} : {line.unit};", line.place, behind)
        self.put("END_RESOURCE")
        self.put("END_CONFIGURATION")

    def task(self, task: Task):
        interval = self.names.scope.wanted(task.interval, "TIME")
        priority = self.names.scope.bound(task.priority)
        above, behind = self.comments.of(task)
        self.put_comments(above)
        self.put(
            f"TASK {task.name} (INTERVAL := {Body.literal(interval, True)}, PRIORITY := {priority});",
            task.place,
            behind,
        )


def made(text: Text) -> list[Line]:
    """The lines of Instruction List of a text in Structured Text; a Refusal where there are none."""
    return Maker(text).lines


def units_made(text: Text) -> dict[str, str]:
    """The text of each unit, by its name in upper case."""
    return {
        name: "".join(f"{it.text}\n" for it in lines).strip("\n") + "\n" for name, lines in Maker(text).units.items()
    }
