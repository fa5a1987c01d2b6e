"""Names of new files: the same words give a new one at each start."""
import os, re

DIGITS = 4  # so that names sort up to 9999


class NoFile(Exception):
    """It can't be made; one line says which, and why."""


def numbered(names: list[str]) -> list[str]:
    """A `%` in the last part of a name becomes a number, the same in all of them: 0001, or one more than the greatest
    that any of them has.
    """
    number = 1 + max((greatest(name) for name in names), default=0)
    return [named(name, number) for name in names]


def named(name: str, number: int) -> str:
    folder, last = os.path.split(name)
    return os.path.join(folder, last.replace("%", f"{number:0{DIGITS}}"))


def greatest(name: str) -> int:
    """The greatest number of a file that is there under this name, or 0."""
    return max((number for number, _ in there(name)), default=0)


def there(name: str) -> list[tuple[int, str]]:
    """What is there under this name: the number and the path of each."""
    folder, last = os.path.split(name)
    if last.count("%") > 1:
        raise NoFile(f"{name}: more than one % in a name")
    if "%" not in last:
        return []
    before, _, after = last.partition("%")
    numbered = re.compile(f"{re.escape(before)}([0-9]{{{DIGITS},18}}){re.escape(after)}")
    try:
        found = [numbered.fullmatch(it) for it in os.listdir(folder or ".")]
    except OSError as why:
        raise NoFile(f"cannot read the folder {folder or '.'}: {why.strerror}") from why
    return [(int(it[1]), os.path.join(folder, it[0])) for it in found if it]


def must_be_new(name: str):
    """Whether the file can be made is tried, and it is removed again: serve makes it."""
    if os.path.lexists(name):
        raise NoFile(
            f"{name} is there already, and is never overwritten; a % in its name becomes a new number at each start"
        )
    try:
        os.close(os.open(name, os.O_WRONLY | os.O_CREAT | os.O_EXCL, 0o666))
        os.remove(name)
    except OSError as why:
        raise NoFile(f"cannot make {name}: {why.strerror}") from why
