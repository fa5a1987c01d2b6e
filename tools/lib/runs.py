"""Many runs of buildings, several at a time."""
import contextlib, multiprocessing, os, pathlib, signal
from dataclasses import dataclass
from functools import partial
from typing import Callable, Iterator

from lib.building import Controller, Scene, Trouble, simulated
from lib.exact import Exact, Known, LeastTime
from lib.figures import Figures, figures
from lib.group_text import Group


@dataclass(frozen=True)
class Job:
    name: tuple  # the caller's, to know it by
    file: str  # of the configuration
    scene: Scene
    cars: int
    demand: float  # %
    seed: int


def played(binary: str, job: Job) -> tuple[Job, Figures]:
    building = simulated(job.scene, job.cars, job.demand, job.seed, lambda: Controller([binary, "serve", job.file]))
    faults = building.faults()
    if faults:
        raise Trouble(1, f"{job.name}: fault of the plant: {faults[0]}")
    return job, figures(building, job.scene.length)


def played_with_knowledge(groups: dict[str, Group], job: Job) -> tuple[Job, Figures]:
    """The same with a dispatcher that knows all, in place of the program; the file is the name of a group."""
    controller = Exact(groups[job.file], LeastTime())
    return job, figures(
        simulated(job.scene, job.cars, job.demand, job.seed, lambda: controller, kind=Known), job.scene.length
    )


def end_worker(*_):
    """Ends this process, and before it what it runs, which would complain otherwise."""
    for task in pathlib.Path("/proc/self/task").glob("*/children"):
        for child in task.read_text().split():
            with contextlib.suppress(ProcessLookupError):
                os.kill(int(child), signal.SIGKILL)
    os._exit(128 + signal.SIGTERM)


def begin_worker():
    """An interrupt is for the parent alone, which then ends its workers."""
    signal.signal(signal.SIGINT, signal.SIG_IGN)
    signal.signal(signal.SIGHUP, signal.SIG_IGN)
    signal.signal(signal.SIGTERM, end_worker)


def made(jobs: list[Job], binary: str, at_a_time: int) -> Iterator[tuple[Job, Figures]]:
    """The figures of each job, in the order of the jobs."""
    yield from of_all(partial(played, binary), jobs, at_a_time)


def made_with_knowledge(jobs: list[Job], groups: dict[str, Group], at_a_time: int) -> Iterator[tuple[Job, Figures]]:
    """The same of a dispatcher that knows all."""
    yield from of_all(partial(played_with_knowledge, groups), jobs, at_a_time)


def of_all(
    play: Callable[[Job], tuple[Job, Figures]], jobs: list[Job], at_a_time: int
) -> Iterator[tuple[Job, Figures]]:
    with multiprocessing.Pool(at_a_time, begin_worker) as pool:
        yield from pool.imap(play, jobs)
