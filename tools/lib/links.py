"""Whether a trace of `serve` begins with the state to which the one before it leads; tools/chain says what that means.
"""
from __future__ import annotations

import re, subprocess, tempfile
from dataclasses import dataclass

LAST_LINE = re.compile(r"(?:^|\n)E \d+\n\Z")
BEGINNING = re.compile(
    r"(?:P \d+ \d+\n)*(?:(?:G \d+\n)+R .*|E \d+\n)?", re.DOTALL
)  # what may come after a head: presses, and a round or the end
LONGEST = 60  # characters of a line that are shown


class Broken(Exception):
    """Why a trace leads nowhere, or doesn't follow."""


@dataclass(frozen=True)
class End:
    """Where a trace leads: the head of the next one with every output still, and with the outputs as they are, if they
    are known.
    """

    still: str
    running: str | None
    note: str = ""

    def heads(self) -> dict[str, str]:
        """The heads that the next trace may have, by what they are called."""
        return {**({"as it was": self.running} if self.running else {}), "with outputs still": self.still}


@dataclass(frozen=True)
class Program:
    binary: str
    file: str

    def run(self, *words: str, given: str = "") -> subprocess.CompletedProcess:
        return subprocess.run(
            [self.binary, *words], input=given, capture_output=True, encoding="utf-8", errors="backslashreplace"
        )

    def must_run(self, *words: str, given: str = "") -> subprocess.CompletedProcess:
        done = self.run(*words, given=given)
        if done.returncode:
            raise Broken(f"{words[0]}: {(done.stderr.strip().splitlines() or [f'status {done.returncode}'])[0]}")
        return done

    def end_of(self, trace: str) -> End:
        """Where a trace leads."""
        is_whole = bool(LAST_LINE.search(text_of(trace)))
        with tempfile.TemporaryDirectory(prefix="chain-") as folder:
            gone_on = self.must_run("serve", self.file, "--from", trace, "--trace", f"{folder}/next", given="E\n")
            still = LAST_LINE.sub("\n", text_of(f"{folder}/next"))
        dropped = gone_on.stderr.strip()
        if dropped:
            return End(still, None, f"{trace} is cut off, {dropped}")
        image = self.must_run("replay", self.file, trace, *([] if is_whole else ["--cut"])).stdout
        return End(still, with_image(still, image), "" if is_whole else f"{trace} has no last line")


def text_of(trace: str) -> str:
    """Of a trace, whatever is in it."""
    try:
        with open(trace, encoding="ascii", errors="backslashreplace", newline="") as file:
            return file.read()
    except OSError as why:
        raise Broken(why.strerror or "cannot read") from why


def with_image(head: str, image: str) -> str:
    """The head with the outputs of an image that `replay` prints. All else that both have is the same."""
    cars = {tuple(line.split()[:2]): line for line in image.splitlines() if line.startswith("CAR ")}
    lines = [cars.get(tuple(line.split()[:2]), line) for line in head.splitlines()]
    missing = [line for line in image.splitlines() if not line.startswith("VAR ") and line not in lines]
    if missing:
        raise Broken(f"replay prints {missing[0]!r}, and serve doesn't write it")
    return "".join(f"{line}\n" for line in lines)


def difference(found: str, wanted: str) -> tuple[int, str]:
    """The first line in which a text differs from the head that it has to have, and how."""
    have, want = found.splitlines(), wanted.splitlines()
    at = next((at for at, (one, other) in enumerate(zip(have, want)) if one != other), min(len(have), len(want)))
    one, other = (repr(lines[at][:LONGEST]) if at < len(lines) else "missing" for lines in (have, want))
    return at, f"line {at + 1} is {one}, and not {other}"


def is_beginning(rest: str) -> bool:
    """Whether this may come after a head: floors are gathered from the lowest on."""
    found = BEGINNING.fullmatch(rest[: rest.rfind("\n") + 1])
    gathered = re.match(r"(?:P \d+ \d+\n)*((?:G \d+\n)*)", rest)[1].split()[1::2]
    return bool(found or gathered) and gathered == [str(at + 1) for at in range(len(gathered))]


def followed(end: End, text: str) -> tuple[str, str]:
    """How a trace goes on from an end, and what comes after its head; that is empty where it is cut off within the
    head.
    """
    heads = end.heads()
    for how, head in heads.items():
        if text.startswith(head) and is_beginning(text[len(head) :]):
            return how, text[len(head) :]
    if "\nR " not in text:
        for how, head in heads.items():
            if head.startswith(text):
                return f"{how}, cut off within its head", ""
    raise Broken(max(difference(text, head) for head in heads.values())[1])


def linked(program: Program, end: End, trace: str) -> tuple[str, End]:
    """What the line of a link says, and where the trace of it leads."""
    text = text_of(trace)
    how, rest = followed(end, text)
    said = f"{how}{f'; {end.note}' if end.note else ''}"
    if re.match("[PG]", rest):
        return said, program.end_of(trace)
    # It has neither a round nor a press, so it leads to where it begins. A start goes on from it or from the one before
    # it.
    is_cut = "cut off" in how
    return f"{said}; no round", End(end.still, None if is_cut else text[: len(text) - len(rest)], "")
