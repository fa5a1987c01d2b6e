"""What a trial expects, and what it got: counts comparisons, prints those that fail, and sums them up at the end.

Trials of tools/ use it, but those that end at the first wrong run and keep its files: fuzz, soak, sweep and year.
"""
from __future__ import annotations

import os, threading

MOST = 1000  # characters of a value that are shown
BEFORE = 200  # of them before the first difference, where that is further on
counts = {True: 0, False: 0}
lock = threading.Lock()  # comparisons come from several threads


def expect(what: str, got: object, wanted: object = True) -> bool:
    """Counts a comparison; one that fails is printed with both values."""
    if got == wanted:
        return expect_that(what, True)
    one, other = repr(wanted), repr(got)
    return expect_that(f"{what}\n  wanted: {shown(one, other)}\n  got:    {shown(other, one)}", False)


def expect_that(what: str, holds: object) -> bool:
    """Counts something that has to hold; where it doesn't, `what` is printed."""
    with lock:
        counts[bool(holds)] += 1
        if not holds:
            print(what, flush=True)
    return bool(holds)


def expect_nothing(wrong: str | None) -> bool:
    """Counts something that was tried; what was wrong with it, if anything was, is printed."""
    return expect_that(wrong or "", not wrong)


def shown(text: str, other: str) -> str:
    """The text; of a long one the part that begins a little before its first difference from the other one."""
    if len(text) <= MOST:
        return text
    begin = max(0, len(os.path.commonprefix([text, other])) - BEFORE)
    end = begin + MOST
    return f"{'...' if begin else ''}{text[begin:end]}{'...' if end < len(text) else ''}"


def failed() -> int:
    """How many have failed so far."""
    return counts[False]


def exit_status() -> int:
    """What a trial ends with: 1 where something failed, otherwise 0."""
    return int(failed() > 0)


def summed_up() -> int:
    """Prints the last line of a trial, `N passed, M failed`, and gives its status."""
    print(f"{counts[True]} passed, {failed()} failed", flush=True)
    return exit_status()
