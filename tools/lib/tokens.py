"""The tokens of a text and their faults, 1 to 6, from docs/LANGUAGE.md and docs/FAULTS.md: nothing here is the
program's.
"""
import re

TEXT_LIMIT = 262_144  # bytes
LONGEST_WORD = 32
LARGEST_NUMBER = 4_294_967_295
LARGEST_DURATION = 2_147_483_647  # milliseconds

RANGES = {
    b"SINT": (-128, 127),
    b"INT": (-32768, 32767),
    b"DINT": (-2_147_483_648, 2_147_483_647),
    b"USINT": (0, 255),
    b"UINT": (0, 65535),
    b"UDINT": (0, 4_294_967_295),
}
UNITS = {b"d": 86_400_000, b"h": 3_600_000, b"m": 60_000, b"s": 1000, b"ms": 1}  # in the order in which they stand
BASES = {b"2": (2, rb"[01]"), b"8": (8, rb"[0-7]"), b"16": (16, rb"[0-9A-Fa-f]")}
DIGITS_ENOUGH = 60  # a number with more digits is too large, whatever they are

BAD_BYTE = re.compile(rb"[^\t\n\r\x20-\x7e]|\r(?!\n)")
FORMS = re.compile(
    rb"(?P<blank>[ \t]+)|(?P<line_end>\r?\n)|(?P<comment>\(\*)|(?P<typed>[A-Za-z_][A-Za-z0-9_]*#-?[A-Za-z0-9_#]*)"
    rb"|(?P<word>[A-Za-z_][A-Za-z0-9_]*)"
    rb"|(?P<number>-?[0-9][A-Za-z0-9_#]*)|(?P<sign>:=|=>|\.\.|[:;,()\[\].&])"
)
GOOD_WORD = re.compile(rb"_?[A-Za-z0-9]+(_[A-Za-z0-9]+)*")
DURATION = re.compile(rb"([0-9]+[A-Za-z]+)+")
PART = re.compile(rb"([0-9]+)([A-Za-z]+)")


def first_fault(text):
    """The number and the line of the first fault of the tokens, or None."""
    fault = tokens_and_fault(text)[1]
    return fault and (fault[0], line_of(text, fault[1]))


def line_of(text, place):
    return 1 + text.count(b"\n", 0, place)


def tokens_and_fault(text):
    """The tokens up to the first fault, each with the name of its form, its bytes and its place; and the fault's number
    and place, or None.

    A place is how many bytes stand before it.
    """
    if len(text) > TEXT_LIMIT:
        return [], (6, 0)
    tokens, at, length = [], 0, len(text)
    while at < length:
        found = FORMS.match(text, at)
        form = found.lastgroup if found else None
        if form == "blank":
            at = found.end()
        elif form == "comment":
            number, at = fault_of_comment(text, at)
            if number:
                return tokens, (number, at)
        else:
            lexeme = found and found[0]
            number = FAULTS[form](lexeme) if form in FAULTS else 0 if form else 1
            if number:
                return tokens, (number, at)
            tokens.append((form, lexeme, at))
            at = found.end()
    return tokens, None


def fault_of_comment(text, opening):
    """The fault of the comment and its place, or 0 and the place behind the comment."""
    inside = opening + 2
    closing = text.find(b"*)", inside)
    if closing < 0:
        return 2, opening
    bad = BAD_BYTE.search(text, inside, closing)
    inner = text.find(b"(*", inside, closing + 1)  # it may share its star with the closing sign
    if inner >= 0 and not (bad and bad.start() < inner):
        return 2, inner
    return (1, bad.start()) if bad else (0, closing + 2)


def fault_of_word(word):
    return 0 if GOOD_WORD.fullmatch(word) and len(word) <= LONGEST_WORD else 5


def fault_of_number(run):
    value = number_of(run)
    return 3 if value is None else 4 if abs(value) > LARGEST_NUMBER else 0


def fault_of_typed(literal):
    name, _, run = literal.partition(b"#")
    name = name.upper()
    if name in (b"T", b"TIME"):
        value = duration_of(run)
        return 3 if value is None else 4 if value > LARGEST_DURATION else 0
    value = number_of(run) if name in RANGES else None
    if value is None:
        return 3
    least, greatest = RANGES[name]
    return 0 if least <= value <= greatest else 4


FAULTS = {"word": fault_of_word, "number": fault_of_number, "typed": fault_of_typed}


def number_of(run):
    """What a number means, or None where it is not well formed."""
    if b"#" in run:
        base, _, digits = run.partition(b"#")
        return value_of(digits, *BASES[base]) if base in BASES else None
    size = value_of(run.removeprefix(b"-"), 10, rb"[0-9]")
    return -size if size and run.startswith(b"-") else size


def value_of(digits, base, digit):
    """The value of digits with single underscores between them. One that is much too large is cut, and still too
    large.
    """
    if not re.fullmatch(rb"%b+(_%b+)*" % (digit, digit), digits):
        return None
    return int(digits.replace(b"_", b"").lstrip(b"0")[:DIGITS_ENOUGH] or b"0", base)


def duration_of(run):
    """The milliseconds of a duration, or None where it is not well formed."""
    if not DURATION.fullmatch(run):
        return None
    order, total, last = list(UNITS), 0, -1
    for digits, unit in PART.findall(run):
        unit = unit.lower()
        if unit not in UNITS or order.index(unit) <= last:
            return None
        last = order.index(unit)
        total += value_of(digits, 10, rb"[0-9]") * UNITS[unit]
    return total
