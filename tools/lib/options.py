"""The words of tools/building and tools/building-plot that say what building and what traffic, and what is wrong with
words.
"""
import argparse, subprocess, sys

from lib.building import MOST_ROUNDS, Length, Plant, Scene, Trouble, rounds
from lib.kinematics import Drive
from lib.serve import NoProgram, find_program
from lib.sizes import Sizes, sizes
from lib.traffic import TEMPLATES, Mix, can_move

MOST = 1_000_000  # of any number that is given
INTERRUPTED = 130  # the status


class Words(argparse.ArgumentParser):
    """Says in one plain line what is wrong."""

    def __init__(self, name: str, what: str):
        super().__init__(prog=name, description=what, allow_abbrev=False)

    def error(self, message):
        raise Trouble(2, message)


def checked(good: bool, what: str):
    if not good:
        raise argparse.ArgumentTypeError(what)


def positive(word: str) -> float:
    what = f"{word!r} is no number above 0"
    try:
        number = float(word)
    except ValueError as why:
        raise argparse.ArgumentTypeError(what) from why
    checked(0 < number < MOST, what)
    return number


def not_negative(word: str) -> float:
    return 0.0 if word == "0" else positive(word)


def numbers(word: str) -> list[float]:
    return [positive(part) for part in word.split(",")]


def whole(word: str) -> int:
    checked(word.isascii() and word.isdigit() and int(word) < MOST, f"{word!r} is no whole number of at least 0")
    return int(word)


def count(word: str) -> int:
    checked(whole(word) > 0, f"{word!r} is not at least 1")
    return int(word)


def people_by_floor(word: str) -> list[int]:
    counts = [whole(part) for part in word.split(",")]
    checked(sum(counts) > 0, "the building has no people")
    return counts


def mix(word: str) -> Mix:
    shares = [whole(part) for part in word.split(":")]
    checked(len(shares) == 3 and sum(shares) > 0, f"{word!r} is no mix such as 85:10:5")
    return Mix(*shares)


def add_building(words: argparse.ArgumentParser):
    of = words.add_argument_group("building")
    heights = "m from each floor to the next: one number for all, or one each from floor 1 on (3.6)"
    of.add_argument("--floor-height", type=numbers, default=[3.6], metavar="M[,M...]", help=heights)
    people = "people of each floor: one number for all above floor 1, or one each from floor 1 on (40)"
    of.add_argument("--population", type=people_by_floor, default=[40], metavar="N[,N...]", help=people)
    of.add_argument("--rated-speed", type=positive, default=1.6, metavar="M/S", help="m/s (1.6)")
    of.add_argument("--acceleration", type=positive, default=1.0, metavar="M/S2", help="m/s² (1.0)")
    of.add_argument("--jerk", type=positive, default=1.5, metavar="M/S3", help="m/s³ (1.5)")
    of.add_argument("--opening", type=positive, default=2.0, metavar="S", help="s from shut to wholly open (2.0)")
    of.add_argument("--closing", type=positive, default=3.0, metavar="S", help="s from wholly open to shut (3.0)")
    of.add_argument(
        "--transfer", type=positive, default=1.0, metavar="S", help="s that a passenger takes through the door (1.0)"
    )
    of.add_argument("--capacity", type=count, default=13, metavar="N", help="persons a car holds (13)")


def add_traffic(words: argparse.ArgumentParser):
    of = words.add_argument_group("traffic")
    of.add_argument("--traffic", choices=TEMPLATES, default="up-peak", help="the template (up-peak)")
    of.add_argument(
        "--mix",
        type=mix,
        metavar="IN:OUT:INTER",
        help="shares of incoming, outgoing and inter-floor passengers, in place of the template's",
    )
    of.add_argument("--minutes", type=positive, default=30.0, metavar="MIN", help="so long passengers come (30)")
    of.add_argument(
        "--warm-up",
        type=not_negative,
        default=5.0,
        metavar="MIN",
        help="who arrive in the first MIN aren't counted in the figures (5)",
    )
    drain = "the run ends when all are carried, or so long behind the last arrivals (15)"
    of.add_argument("--drain", type=not_negative, default=15.0, metavar="MIN", help=drain)


def add_binary(words: argparse.ArgumentParser):
    words.add_argument(
        "--binary",
        type=program,
        default="",
        metavar="BINARY",
        help="the program (build/liftplc, or an unproved build where there is no other)",
    )


def program(word: str) -> str:
    try:
        return find_program(word).path
    except NoProgram as why:
        raise Trouble(2, str(why)) from why


def for_all(given: list, many: int, first: list, what: str) -> list:
    """One number for all, or one for each."""
    if len(given) == 1:
        return first + given * (many - len(first))
    if len(given) != many:
        raise Trouble(2, f"{what}: {many} numbers are needed, and {len(given)} are given")
    return given


def length(words: argparse.Namespace) -> Length:
    made = Length(words.minutes, words.warm_up, words.drain)
    if made.most_rounds() > MOST_ROUNDS:
        raise Trouble(2, "the run is longer than NOW can count, 24.8 days")
    if words.warm_up >= words.minutes:
        raise Trouble(2, "--warm-up is not shorter than --minutes")
    return made


def scene(words: argparse.Namespace, floors: int) -> Scene:
    """What the words say, for a building with so many floors."""
    steps = for_all(words.floor_height, floors - 1, [], "--floor-height")
    heights = tuple(sum(steps[:at]) for at in range(floors))
    drive = Drive(words.rated_speed, words.acceleration, words.jerk)
    plant = Plant(heights, drive, rounds(words.opening), rounds(words.closing), rounds(words.transfer), words.capacity)
    population = for_all(words.population, floors, [0], "--population")
    shares = words.mix or TEMPLATES[words.traffic].mix
    if not can_move(shares, population):
        raise Trouble(2, "too few floors above floor 1 have people for this traffic")
    return Scene(plant, population, shares, length(words))


def checked_sizes(binary: str, file: str) -> Sizes:
    """The sizes of an accepted FILE. Of any other the program says what is wrong with it."""
    try:
        status = subprocess.run([binary, "check", file], stdin=subprocess.DEVNULL, stdout=subprocess.DEVNULL).returncode
        if status:
            raise Trouble(status, "")
        with open(file, encoding="ascii") as of:
            return sizes(of.read())
    except OSError as why:
        raise Trouble(3, f"cannot read {why.filename}: {why.strerror}") from why


def guarded(name: str, run) -> int:
    """The status of a tool; what went wrong is one plain line."""
    try:
        return run()
    except Trouble as trouble:
        status, why = trouble.args
        if why:
            print(f"{name}: {why}", file=sys.stderr)
        return status
    except KeyboardInterrupt:
        return INTERRUPTED
    except OSError as why:
        print(f"{name}: cannot write {why.filename or 'standard output'}: {why.strerror}", file=sys.stderr)
        return 3
