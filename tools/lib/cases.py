"""The runs of crates/test_cases: the words of each, and the files that are there, as its README gives the form."""

from __future__ import annotations

import pathlib, re, shlex
from typing import Iterator

STDIN = pathlib.Path(__file__).resolve().parent.parent.parent / "crates/test_cases/stdin"
ESCAPED = re.compile(rb"\\(n|r|t|x[0-9a-f]{2})")


def bytes_of(text: bytes) -> bytes:
    """What `=TEXT` adds."""
    plain = {b"n": b"\n", b"r": b"\r", b"t": b"\t"}
    return ESCAPED.sub(lambda it: plain.get(it[1]) or bytes([int(it[1][1:], 16)]), text)


def added(line: bytes, files: dict[str, bytes]) -> bytes:
    """What a line adds to a file; most add nothing."""
    times = 1
    if repeated := re.match(rb"\*(\d+)(?=[+=])", line):
        times, line = int(repeated[1]), line[repeated.end() :]
    if line.startswith(b"+"):
        return times * (line[1:] + b"\n")
    if line.startswith(b"="):
        return times * bytes_of(line[1:])
    if line.startswith(b"&"):
        return files.get(line[1:].decode(), b"")
    return b""


def runs() -> Iterator[tuple[list[str], dict[str, bytes]]]:
    """Each run. What a run adds to a file isn't there, nor a trace that `serve` writes."""
    files: dict[str, bytes] = {}
    last = ""
    for line in STDIN.read_bytes().split(b"\n"):
        if line.startswith((b"@", b"!")):
            last = line[1:].decode()
            files[last] = b""
        elif line.startswith((b"$", b"?", b"<")):
            yield shlex.split(line[1:].decode("latin-1").replace("'", "\\'").replace("#", "\\#")), files
        elif more := added(line, files):
            files[last] += more
