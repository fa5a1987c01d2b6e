"""The grammar of docs/LANGUAGE.md as rules, which tokens can stand at a place of a text, and its first fault from 10 to
12: nothing here is the program's.

The rules are turned into a network of places. What may come next is told by the set of all places at which a text with
these tokens may be; behind each of them some text goes on, so a token with which no place is left is one with which no
text goes on. Rules that nest are called, and the sets in which they go on stand on a stack. Sets and steps between them
are made when they are first met, and kept.
"""
import re
from collections import defaultdict

from lib.tokens import line_of, tokens_and_fault

MOST_UNITS = 64
MOST_INSTRUCTIONS = 4096
MOST_PARENTHESES = 16

# As in docs/LANGUAGE.md, with these rules beside:
#   nested       what stands behind the parenthesis of a deferred operator: without an operand the first instruction
#                is a load
#   load, plain  instructions that may stand in parentheses;  leaving: the others
# NL is a line end, END the end of the text, and N the word N directly behind an `&`.
RULES = """
text       = { unit } config END
unit       = FUNCTION name ':' scalar inputs [ vars ] body END_FUNCTION
           | FUNCTION_BLOCK name [ inputs ] [ outputs ] [ vars ] body END_FUNCTION_BLOCK
           | PROGRAM name [ vars ] [ externals ] body END_PROGRAM
inputs     = VAR_INPUT decl { decl } END_VAR
outputs    = VAR_OUTPUT decl { decl } END_VAR
vars       = VAR { decl } END_VAR
externals  = VAR_EXTERNAL { name ':' type ';' } END_VAR
decl       = name { ',' name } ':' type [ ':=' literal ] ';'
type       = scalar | ARRAY '[' number '..' number ']' OF scalar | name
scalar     = elementary [ '(' number '..' number ')' ]
elementary = BOOL | SINT | INT | DINT | USINT | UINT | UDINT | TIME
config     = CONFIGURATION name VAR_GLOBAL CONSTANT CARS size FLOORS size SLOTS size END_VAR
             [ VAR_GLOBAL { decl } END_VAR ]
             RESOURCE name ON name { task } { program } END_RESOURCE END_CONFIGURATION
size       = ':' INT ':=' decimal ';'
task       = TASK name '(' INTERVAL ':=' duration ',' PRIORITY ':=' decimal ')' ';'
program    = PROGRAM name WITH name ':' name ';'

body       = NL { line }
line       = [ name colon ] [ load | plain | leaving ] NL
colon      = ':'
load       = ( LD | LDN ) operand
plain      = ( ST | STN | S | R ) place | NOT | op ( operand | '(' nested ) | name [ operand { ',' operand } ]
nested     = ( operand NL | NL { NL } load NL ) { [ load | plain ] NL } close
close      = ')'
leaving    = ( JMP | JMPC | JMPCN ) name | RET | RETC | RETCN | ( CAL | CALC | CALCN ) name [ '(' arguments ]
arguments  = [ arg { ',' arg } ] ')'
arg        = word ':=' operand | word '=>' name
op         = '&' [ N ] | AND | ANDN | OR | ORN | XOR | XORN | ADD | SUB | MUL | DIV | MOD | GT | GE | EQ | NE | LE | LT
operand    = literal | place
place      = name | name '[' ( number | name ) ']' | name '.' word
literal    = TRUE | FALSE | number | typed | duration
"""
LINE_ENDS_COUNT = {
    "text": False,
    "body": True,
    "arguments": False,
}  # in these rules; in the others as where they are used
CALLED = "nested"  # each nesting goes through it

# What the first token of a rule begins.
UNIT, INSTRUCTION, LABEL = "unit", "instruction", "label"
BEGINS = {
    "unit": UNIT,
    "load": INSTRUCTION,
    "plain": INSTRUCTION,
    "leaving": INSTRUCTION,
    "close": INSTRUCTION,
    "colon": LABEL,
}
EITHER = "instruction or label"  # a name at the front of a line is told by the token behind it

# ---- Kinds of tokens ----

RESERVED = set(
    """LD LDN ST STN S R AND ANDN OR ORN XOR XORN NOT ADD SUB MUL DIV MOD GT GE EQ NE LE LT JMP JMPC JMPCN
    CAL CALC CALCN RET RETC RETCN BOOL SINT INT DINT USINT UINT UDINT TIME ARRAY OF TRUE FALSE
    VAR VAR_INPUT VAR_OUTPUT VAR_EXTERNAL VAR_GLOBAL CONSTANT END_VAR FUNCTION FUNCTION_BLOCK PROGRAM CONFIGURATION
    RESOURCE END_FUNCTION END_FUNCTION_BLOCK END_PROGRAM END_CONFIGURATION END_RESOURCE
    ON TASK WITH INTERVAL PRIORITY""".split()
)
SIZES = {"CARS", "FLOORS", "SLOTS"}  # words of the configuration that are names too
OTHER_NAME, OTHER_NUMBER = "other name", "other number"
NAMES = {*SIZES, OTHER_NAME}
CLASSES = {
    "name": NAMES,
    "word": NAMES | RESERVED,
    "number": {"decimal", OTHER_NUMBER},
}  # the kinds that a rule names by one word
DECIMAL = re.compile(rb"[0-9_]+")
known_kinds = {}  # by the bytes


def kind_of(form, lexeme):
    if form == "line_end":
        return "NL"
    if form == "word":
        word = lexeme.upper().decode()
        return word if word in RESERVED or word in SIZES else OTHER_NAME
    if form == "number":
        return "decimal" if DECIMAL.fullmatch(lexeme) else OTHER_NUMBER
    if form == "typed":
        return "duration" if lexeme[:2].upper() in (b"T#", b"TI") else "typed"
    return lexeme.decode()


def kinds_of(tokens, length):
    """The kind and the place of each token, and the end of the text."""
    kinds, last = [], None
    for form, lexeme, place in tokens:
        kind = known_kinds.get(lexeme)
        if not kind:
            kind = known_kinds[lexeme] = kind_of(form, lexeme)
        if last == place and lexeme in (b"N", b"n"):
            kind = "N"
        last = place + 1 if lexeme == b"&" else None
        kinds.append((kind, place))
    kinds.append(("END", length))
    return kinds


# ---- The rules ----

NOTATION = re.compile(r"'[^']+'|\w+|[\[\]{}()|=]")


def read(rules):
    """The right side of each rule: ("or", parts), ("row", parts), ("many", part), ("may", part), ("rule", name) or
    ("token", name).
    """
    words = NOTATION.findall(rules)
    heads = [at - 1 for at, word in enumerate(words) if word == "="]
    sides = {words[head]: words[head + 2 : behind] for head, behind in zip(heads, [*heads[1:], len(words)])}
    return {name: choice(side[::-1], sides) for name, side in sides.items()}


def choice(words, names):
    """Takes a choice from the end of the list, up to its closing bracket."""
    rows = [[]]
    while words and words[-1] not in ("]", "}", ")"):
        word = words.pop()
        if word == "|":
            rows.append([])
        elif word in ("[", "{", "("):
            part = choice(words, names)
            words.pop()
            rows[-1].append(part if word == "(" else ("may" if word == "[" else "many", part))
        else:
            rows[-1].append(("rule" if word in names else "token", word.strip("'")))
    return ("or", [row[0] if len(row) == 1 else ("row", row) for row in rows]) if len(rows) > 1 else ("row", rows[0])


GRAMMAR = read(RULES)


class Network:
    """The places in the rules, and the ways between them: over a token of a kind, over nothing, and over a rule that is
    called.
    """

    def __init__(self):
        self.over_token = defaultdict(list)  # place: (kind, what it begins, place behind)
        self.over_nothing = defaultdict(list)
        self.over_call = {}  # place: place behind
        self.count = 0
        self.starts, self.ends = {}, {}
        for name in ("text", CALLED):
            self.starts[name], self.ends[name] = self.place(), self.place()
            self.lay(GRAMMAR[name], self.starts[name], self.ends[name], LINE_ENDS_COUNT.get(name, True), None)

    def place(self):
        self.count += 1
        return self.count

    def lay(self, part, start, end, line_ends_count, begins):
        """Lays the ways of a part of a rule from one place to another."""
        kind, what = part
        if kind == "or":
            for one in what:
                self.lay(one, start, end, line_ends_count, begins)
        elif kind == "row":
            for one in what[:-1]:
                behind = self.place()
                self.lay(one, start, behind, line_ends_count, begins)
                start, begins = behind, None
            self.lay(what[-1], start, end, line_ends_count, begins)
        elif kind == "may":
            self.over_nothing[start].append(end)
            self.lay(what, start, end, line_ends_count, None)
        elif kind == "many":
            hub = self.place()
            self.over_nothing[start].append(hub)
            self.over_nothing[hub].append(end)
            self.lay(what, hub, hub, line_ends_count, None)
        elif what == CALLED:
            self.over_call[start] = end
        elif kind == "rule":
            self.lay(GRAMMAR[what], start, end, LINE_ENDS_COUNT.get(what, line_ends_count), BEGINS.get(what, begins))
        else:
            if not line_ends_count:
                start = self.blanks_from(start)
            for one in CLASSES.get(what, [what]):
                self.over_token[start].append((one, begins, end))

    def blanks_from(self, start):
        """A place behind any number of line ends."""
        behind = self.place()
        self.over_nothing[start].append(behind)
        self.over_token[behind].append(("NL", None, behind))
        return behind

    def with_nothing(self, places):
        """These places and those that are reached over nothing; of them those that are an end, or from which something
        else leads on.
        """
        reached, left = set(places), list(places)
        while left:
            for place in self.over_nothing[left.pop()]:
                if place not in reached:
                    reached.add(place)
                    left.append(place)
        return frozenset(
            place
            for place in reached
            if place in self.over_token or place in self.over_call or place in self.ends.values()
        )


NETWORK = Network()


class Sets:
    """The sets of places that were met, by numbers, and the steps from each over a kind of token."""

    def __init__(self):
        self.numbers, self.sets, self.steps = {}, [], []
        self.start = self.number(NETWORK.with_nothing([NETWORK.starts["text"]]))
        self.nested = self.number(NETWORK.with_nothing([NETWORK.starts[CALLED]]))

    def number(self, places):
        if places not in self.numbers:
            self.numbers[places] = len(self.sets)
            self.sets.append(places)
            self.steps.append({})
        return self.numbers[places]

    def step(self, state, kind):
        """The next set, or None; what the token begins; the set in which a call goes on, if the token leads to one; and
        whether it ends a call.
        """
        ways = [way for place in self.sets[state] for way in NETWORK.over_token[place] if way[0] == kind]
        places = NETWORK.with_nothing([end for _, _, end in ways])
        begins = {begun for _, begun, _ in ways}
        calls = [NETWORK.over_call[place] for place in places if place in NETWORK.over_call]
        ends_call = NETWORK.ends[CALLED] in places
        # The stack is told by the tokens alone: no set is partly in a call.
        assert not calls or len(calls) == len(places)
        assert not ends_call or len(places) == 1
        assert len(begins) <= 1 or begins == {None, INSTRUCTION}
        found = (
            (self.nested if calls else self.number(places)) if places else None,
            EITHER if len(begins) > 1 else next(iter(begins), None),
            self.number(NETWORK.with_nothing(calls)) if calls else None,
            ends_call,
        )
        self.steps[state][kind] = found
        return found


SETS = Sets()


# ---- Faults ----


class Reading:
    """The fault of a text whose tokens have none: its number and its place, or None; and of a 10 the set of places in
    the rules at which it stands.
    """

    def __init__(self, tokens, length):
        self.state = SETS.start
        self.fault = self.first_fault(kinds_of(tokens, length))

    def first_fault(self, kinds):
        steps, state, stack = SETS.steps, self.state, []
        units, instructions, unsure = 0, 0, None  # unsure: the place of a name that may begin an instruction
        for kind, place in kinds:
            behind, begins, goes_on, ends_call = steps[state].get(kind) or SETS.step(state, kind)
            if unsure is not None:
                if begins != LABEL:
                    instructions += 1
                    if instructions > MOST_INSTRUCTIONS:
                        return 12, unsure
                unsure = None
            if behind is None:
                self.state = state
                return 10, place
            if begins == INSTRUCTION:
                instructions += 1
                if instructions > MOST_INSTRUCTIONS:
                    return 12, place
            elif begins == EITHER:
                unsure = place
            elif begins == UNIT:
                units, instructions = units + 1, 0
                if units > MOST_UNITS:
                    return 12, place
            if goes_on is not None:
                stack.append(goes_on)
                if len(stack) > MOST_PARENTHESES:
                    return 11, place
            state = stack.pop() if ends_call else behind
        return None

    def can_stand(self, kind):
        """Whether some text goes on with a token of this kind, at the place of a 10."""
        return (SETS.steps[self.state].get(kind) or SETS.step(self.state, kind))[0] is not None

    def line_end_is_blank(self):
        """Whether a line end changes nothing at the place of a 10."""
        return (SETS.steps[self.state].get("NL") or SETS.step(self.state, "NL"))[0] == self.state


def first_fault(text):
    """The number, the line and the place of the first fault of the tokens or of the grammar, or None."""
    tokens, fault = tokens_and_fault(text)
    fault = fault or Reading(tokens, len(text)).fault
    return fault and (fault[0], line_of(text, fault[1]), fault[1])
