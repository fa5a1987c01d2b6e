"""What a release is made from: the commit of the checkout, its version, the program with what is known of it, and the
crates.
"""
import os, re, shutil, subprocess
from dataclasses import dataclass
from typing import Iterator

TOP = os.path.dirname(os.path.dirname(os.path.dirname(os.path.dirname(os.path.realpath(__file__)))))
WITHOUT_KIT = "/usr/bin:/bin"  # a path on which the launcher finds no kit, and so makes no build
LONGEST = 600  # seconds that a command may take
PROVED = "proved from the sources of this commit"
NOT_PROVED = "not proved"
VERSIONS = {  # where the version is repeated
    "crates/cli_help/src/command.rt": r'^const VERSION: &str = "(.*)";$',
    "docs/COMMANDS.md": r"^liftplc (\d.*)$",
    "include/liftplc.pc": r"^Version: (.*)$",
    "editors/vscode/package.json": r'^  "version": "(.*)",$',
    "README.md": r"/liftplc_(.*)_amd64\.deb$",
    "CHANGELOG.md": r"\A# Changelog\n\n## ([^\s,]+)",
}


class Trouble(Exception):
    """The status, and why in one plain line."""

    def __init__(self, status: int, why: str):
        super().__init__(why)
        self.status = status


@dataclass(frozen=True)
class Commit:
    name: str
    time: int  # s since 1970-01-01 UTC


@dataclass(frozen=True)
class Build:
    """What ./liftplc has made. `sources` is the checksum of what it was made from, and `kit` with which kit; empty
    where that isn't known.
    """

    program: bytes
    library: bytes
    is_proved: bool
    sources: str
    kit: str


@dataclass(frozen=True)
class Crate:
    """A crate with the crates that it uses. Of one of the kit it isn't known here what it uses."""

    name: str
    is_of_kit: bool
    uses: tuple[str, ...] = ()


def read(path: str) -> bytes:
    try:
        with open(path, "rb") as file:
            return file.read()
    except OSError as why:
        raise Trouble(3, f"{path}: {why.strerror}") from why


def text(path: str) -> str:
    """Of a file of the checkout."""
    return read(f"{TOP}/{path}").decode("utf-8")


def called(*words: str) -> str:
    try:
        done = subprocess.run(words, cwd=TOP, stdin=subprocess.DEVNULL, capture_output=True, text=True, timeout=LONGEST)
    except (OSError, subprocess.SubprocessError) as why:
        raise Trouble(3, f"{words[0]}: {why}") from why
    if done.returncode:
        raise Trouble(
            3, f"{' '.join(words[:2])}: {(done.stderr.strip() or f'status {done.returncode}').splitlines()[-1]}"
        )
    return done.stdout


# the commit


def commit() -> Commit:
    """That of the checkout, which has to be as it was committed. Its time is SOURCE_DATE_EPOCH, if that is set."""
    name, time = called("git", "log", "-1", "--format=%H%n%ct").splitlines()
    changed = called("git", "status", "--porcelain").splitlines()
    if changed:
        raise Trouble(
            3,
            (
                "the checkout isn't as it was committed: "
                f"{changed[0].strip()}{f', and {len(changed) - 1} more' if changed[1:] else ''}"
            ),
        )
    given = os.environ.get("SOURCE_DATE_EPOCH", "")
    if given and not (given.isascii() and given.isdecimal()):
        raise Trouble(2, f"SOURCE_DATE_EPOCH is no number of seconds: {given!r}")
    return Commit(name, int(given or time))


def files(*places: str) -> list[str]:
    """Files of the commit at these places, sorted."""
    return sorted(called("git", "ls-files", "-z", "--", *places).split("\0")[:-1])


def version() -> str:
    return text("VERSION").strip()


def other_versions() -> Iterator[str]:
    """A line of each place that has another version than the file VERSION, or several."""
    for path, pattern in VERSIONS.items():
        found = re.findall(pattern, text(path), re.M)
        if found != [version()]:
            yield f"VERSION has {version()}, and {path} {', '.join(found) or 'none'}"


# the program


def build_folder() -> str:
    return os.path.join(TOP, os.environ.get("LIFTPLC_BUILD") or "build")


def is_proved() -> bool:
    """Whether ./liftplc takes the build for the proved program of these sources. Without the kit it makes none, and
    says of any other build what it is.
    """
    env = {it: os.environ[it] for it in ("LIFTPLC_BUILD",) if it in os.environ} | {"PATH": WITHOUT_KIT}
    done = subprocess.run(
        [f"{TOP}/liftplc", "--version"],
        cwd=TOP,
        env=env,
        stdin=subprocess.DEVNULL,
        capture_output=True,
        timeout=LONGEST,
    )
    return done.returncode == 0 and not done.stderr


def kit_here() -> str:
    """The name of the kit on the path, or nothing."""
    return (
        read(f"{os.path.dirname(called('rt', 'doc').splitlines()[-1])}/KIT-ID").decode().strip()
        if shutil.which("rt")
        else ""
    )


def build() -> Build:
    folder = build_folder()
    program = read(f"{folder}/liftplc")
    library = read(f"{folder}/libliftplc.a") if os.path.exists(f"{folder}/libliftplc.a") else b""
    made_of = read(f"{folder}/sources").decode().splitlines() if os.path.exists(f"{folder}/sources") else []
    sources, kit = (made_of[0].split()[0], made_of[1]) if len(made_of) == 2 and made_of[0] else ("", "")
    here = kit_here()
    return Build(program, library, bool(kit) and kit == (here or kit) and is_proved(), sources, kit)


# the crates


def crates() -> list[Crate]:
    """Those of crates.txt in its order, and then those of the kit that it names."""
    rows = [
        re.fullmatch(r"(\w+)(?: staticlib)?:(.*)", line)
        for line in text("crates.txt").splitlines()
        if line and not line.startswith("#")
    ]
    if None in rows:
        raise Trouble(3, "crates.txt has a line that is no crate")
    own = [Crate(row[1], False, tuple(row[2].split())) for row in rows if row]
    names = {it.name for it in own}
    return [*own, *(Crate(name, True) for name in sorted({used for it in own for used in it.uses} - names))]
