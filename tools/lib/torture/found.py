"""What tools/torture writes of a scenario that fails: the scenario, the lines of `serve`, a file for `sim --calls`, a
trace, a picture, and commands to look at it."""
from __future__ import annotations

import os, shlex, subprocess
from dataclasses import dataclass, replace

from lib.building import Trouble
from lib.torture.machine import answer_of, round_text
from lib.torture.run import Failure, Run
from lib.torture.scenario import Scenario, lines
from lib.torture.work import Worker

MARGIN = 50  # rounds that the picture goes on after the last thing happens
MOST_NAMES = 24  # of a `watch` command
OF_CAR = "POS", "LEVEL", "LOCKED", "OPENED", "MOTOR", "OPEN"
OF_SLOT = "CALLWAITS", "CALLFROM", "CALLTO", "CALLCAR"


@dataclass(frozen=True)
class Found:
    """A property that fails in a scenario, and the names of the files that show it."""

    failure: Failure
    scenario: Scenario
    lines: list[str]
    files: dict[str, str]  # by kind
    commands: dict[str, str]  # by what they show


def written(worker: Worker, scenario: Scenario, name: str, folder: str, program: str) -> Found:
    """Runs it once more, and writes the files. Names of files and of the program stand in the commands as they are
    given.
    """
    task = worker.task
    run = worker.ran(scenario, worker.alone(name), keeps=True)
    if name not in run.failures:
        raise Trouble(1, f"{name} fails, and not a second time: this is a fault of tools/torture")
    os.makedirs(folder, exist_ok=True)
    files = {kind: f"{folder}/{name}.{kind}" for kind in ("scenario", "serve", "trace", "svg")}
    text = lines(scenario, task.rules.sizes.cars)
    put(
        files["scenario"],
        f"# {name} of {os.path.basename(task.file)}: {run.failures[name].what}\n" + "\n".join(text) + "\n",
    )
    put(
        files["serve"], "".join(round_text(presses, fields).decode("ascii") for presses, fields, _ in run.heard) + "E\n"
    )
    serve(worker, run, files)
    until = min(run.now, last_change(run) + MARGIN)
    words = ["draw", task.file, files["trace"], "--rounds", f"1:{until}"]
    with open(files["svg"], "wb") as to:
        if status := subprocess.run([task.binary, *words], stdin=subprocess.DEVNULL, stdout=to).returncode:
            raise Trouble(status, "")
    commands = {
        "picture": shlex.join([program, *words]) + f" >{shlex.quote(files['svg'])}",
        "values": shlex.join(
            [program, "watch", task.file, files["trace"], *names(run.failures[name], scenario, task.rules.sizes.slots)]
        ),
        "lines": shlex.join([program, "serve", task.file]) + f" <{shlex.quote(files['serve'])}",
    }
    if scenario.is_for_sim() and run.now <= 50_000:
        calls = files["scenario"] if list(run.presses) == list(scenario.presses) else f"{folder}/{name}.calls"
        if calls not in files.values():
            files["calls"] = calls
            put(calls, "\n".join(lines(replace(scenario, presses=tuple(run.presses)), task.rules.sizes.cars)) + "\n")
        commands["trace"] = shlex.join([program, "sim", task.file, str(run.now), "--calls", calls])
    return Found(run.failures[name], scenario, text, files, commands)


def put(name: str, text: str):
    with open(name, "w", encoding="ascii") as to:
        to.write(text)


def serve(worker: Worker, run: Run, files: dict[str, str]):
    """`serve` takes the lines and writes the trace; its answers are those of the run."""
    if os.path.lexists(files["trace"]):
        os.unlink(files["trace"])
    words = [worker.task.binary, "serve", worker.task.file, "--trace", files["trace"]]
    with open(files["serve"], "rb") as given:
        done = subprocess.run(words, stdin=given, stdout=subprocess.PIPE)
    if done.returncode:
        raise Trouble(done.returncode, "")
    ends = [at for at, line in enumerate(done.stdout.split(b"\n")) if line.startswith(b"outputs")]
    all_lines, begin = done.stdout.split(b"\n"), 0
    for (_, _, answer), end in zip(run.heard, ends):
        heard = answer_of(b"\n".join(all_lines[begin : end + 1]))
        if (heard.notices, heard.outputs) != (answer.notices, answer.outputs):
            raise Trouble(
                1,
                f"serve and the library differ in the answer to line {begin + 1} and on: one isn't of these sources",
            )
        begin = end + 1


def last_change(run: Run) -> int:
    """The last round in which something happened: an output that changed, or a notice that isn't a denial."""
    last, before = max(it.at for it in run.scenario.events()), ()
    for at, (presses, _, answer) in enumerate(run.heard, 1):
        if presses or answer.outputs != before or any(it[0] != "denied" for it in answer.notices):
            last = max(last, at)
        before = answer.outputs
    return last


def names(failure: Failure, scenario: Scenario, slots: int) -> list[str]:
    """What to watch: the cars and call slots of which it is; where it names none, the first ones."""
    cars = failure.cars or tuple(sorted({it.car for it in scenario.faults if it.car}))[:1] or (1,)
    of_cars = [f"CAR{car}.{name}" for car in cars for name in OF_CAR]
    of_slots = [f"{name}[{slot}]" for slot in (failure.slots or (1,)) for name in OF_SLOT if slot <= slots]
    return (of_cars + of_slots)[:MOST_NAMES]
