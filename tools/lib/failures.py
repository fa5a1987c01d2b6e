"""What fails in a building, and when: the random faults of `tools/building --faults`."""
import random
from dataclasses import dataclass

KINDS = {  # with what each is
    "dead": "cars that stopped dead",
    "door": "doors that didn't shut",
    "level": "cars that lost LEVEL",
    "fire": "fire recalls",
    "limit": "limits of running cars",
    "restart": "new starts of the controller",
}
GAP = 600  # rounds from one fault to the next, on average
SHORTEST, LONGEST = 100, 2000  # rounds


@dataclass(frozen=True)
class Failure:
    kind: str
    car: int  # its number, or for a limit how many may run
    first: int  # round
    last: int  # round; all is well from the next one on


def failures(cars: int, rounds: int, seed: int) -> list[Failure]:
    """Those of a run, by their first rounds. All end within so many rounds; in the last of these the controller starts
    anew, perhaps with people in the cars.
    """
    chance, made = random.Random(seed), []
    first = chance.randint(GAP // 2, GAP)
    while first < rounds:
        kind = chance.choice(list(KINDS))
        car = chance.randrange(cars) if kind == "limit" else chance.randint(1, cars)
        made.append(
            Failure(
                kind, car, first, first if kind == "restart" else min(rounds, first + chance.randint(SHORTEST, LONGEST))
            )
        )
        first += chance.randint(1, 2 * GAP)
    return [*made, Failure("restart", 0, rounds, rounds)]
