"""The standard streams of a process that nobody watches."""
import os, select

STANDARD_INPUT, STANDARD_OUTPUT, STANDARD_ERROR = 0, 1, 2
MOST = 512  # bytes of a line; where a pipe can be written, it takes so many at once


def keep_standard_streams():
    """A stream that was closed is one that fails, and not the next file that is opened."""
    for stream in (STANDARD_INPUT, STANDARD_OUTPUT, STANDARD_ERROR):
        try:
            os.fstat(stream)
        except OSError:
            os.open(os.devnull, os.O_WRONLY if stream == STANDARD_INPUT else os.O_RDONLY)


def plain(text: str) -> str:
    """The text with a `?` for what can't be printed, so that no word of a call changes a terminal."""
    return "".join(letter if letter.isprintable() else "?" for letter in text)


def warn(name: str, text: str):
    """A line on standard error. One that nobody takes is left out: it may hold up no round."""
    line = f"{name}: {plain(text)}" if name else plain(text)
    try:
        if select.select([], [STANDARD_ERROR], [], 0)[1]:
            os.write(STANDARD_ERROR, line.encode("utf-8", "backslashreplace")[: MOST - 1] + b"\n")
    except OSError:
        pass
