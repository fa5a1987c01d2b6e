"""The sizes of a group, as its configuration's VAR_GLOBAL CONSTANT gives them (docs/LANGUAGE.md, "The configuration").
"""
import re
from typing import NamedTuple

MOST_BYTES = 262_144  # of a configuration's text
SHOWN = 20  # digits of a size that is too large
LIMITS = {"CARS": (1, 8), "FLOORS": (2, 16), "SLOTS": (1, 64)}


class Sizes(NamedTuple):
    cars: int
    floors: int
    slots: int


class NoSizes(Exception):
    """Why a text has none."""


def sizes(text: str) -> Sizes:
    """CARS, FLOORS and SLOTS. Comments are blank, and letter case has no meaning. The text isn't checked besides."""
    bare = re.sub(r"\(\*.*?\*\)", " ", text, flags=re.DOTALL).upper()
    group = re.search(r"\bVAR_GLOBAL\s+CONSTANT\b(.*?)\bEND_VAR\b", bare, re.DOTALL)
    if not group:
        raise NoSizes("it has no VAR_GLOBAL CONSTANT")
    return Sizes(*(size_of(name, group[1]) for name in LIMITS))


def size_of(name: str, group: str) -> int:
    found = re.search(rf"\b{name}\s*:\s*INT\s*:=\s*([0-9][0-9_]*)\s*;", group)
    if not found:
        raise NoSizes(f"it gives no {name}")
    least, most = LIMITS[name]
    digits = found[1].replace("_", "").lstrip("0") or "0"
    if len(digits) > len(str(most)) or not least <= int(digits) <= most:
        raise NoSizes(
            f"{name} is {digits[:SHOWN]}{'...' if len(digits) > SHOWN else ''}, and not from {least} to {most}"
        )
    return int(digits)


def sizes_of_file(path: str) -> Sizes:
    with open(path, "rb") as file:
        text = file.read(MOST_BYTES + 1)
    if len(text) > MOST_BYTES:
        raise NoSizes(f"it has more than {MOST_BYTES} bytes")
    return sizes(text.decode("latin-1"))
