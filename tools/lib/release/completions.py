"""The commands of liftplc with their options, as one table, and completions for bash, zsh and fish that are made of it.

`differences` compares the table with what `liftplc help` prints and with the commands of docs/COMMANDS.md.
"""
import re, subprocess
from dataclasses import dataclass
from typing import Iterator

FILES = {"FILE", "TRACE", "ROUNDS|TRACE", "CALLS"}  # words that are names of files
LONGEST = 600  # seconds that `help` may take on a busy machine


class NoHelp(Exception):
    """The program doesn't print its help; one line says why."""


@dataclass(frozen=True)
class Option:
    name: str
    value: str
    says: str


@dataclass(frozen=True)
class Command:
    name: str
    says: str
    words: str
    options: tuple[Option, ...] = ()


FIRE = Option("--fire", "ROUND", "From this round on, fire recall is on")
CALLS = Option(
    "--calls",
    "CALLS",
    "Also makes the calls of the file CALLS, and sets FIRE and RUNLIMIT as it says; docs/COMMANDS.md has its lines",
)
CUT = Option("--cut", "", "Takes a trace that was cut off, up to its last whole line")
JSON = Option("--json", "", "Prints JSON, an object a line, and one below a refusal; docs/COMMANDS.md has the keys")
EXPLAIN = Option(
    "--explain", "", "Shows below a fault its line and what it means"
)  # with every command; `liftplc help` names it in a sentence
HELP = Option("--help", "", "Print help")
COMMANDS = (
    Command(
        "check", "Verifies FILE and shows its tasks and units", "<FILE>",
        (
            Option("--warn", "", "Also prints, on standard error, what an accepted FILE declares or stores without effect"),
            Option("--limits", "", "Also shows how much of each limit FILE uses"),
            Option(
                "--paths", "",
                "Shows lines of a path that follow one another as a range, as 144-247; not with --json",
            ),
            Option("--all", "", "Also prints the first fault of each other unit of a refused FILE"),
            JSON,
        ),
    ),
    Command(
        "ranges", "Shows the ranges that the verifier finds for each instruction of FILE", "<FILE>",
        (Option("--text", "", "Also shows the text of each instruction; not with --json"), JSON),
    ),
    Command("xref", "Shows where FILE declares, reads, writes and calls each name", "<FILE>", (JSON,)),
    Command("sim", "Runs FILE on a simulated plant and prints the trace", "<FILE> <ROUNDS> [PRESS]...", (FIRE, CALLS)),
    Command(
        "run", "Runs FILE with a thread for each task and prints the trace", "<FILE> <ROUNDS> [PRESS]...",
        (
            FIRE,
            CALLS,
            Option("--together", "", "A round ends for all tasks before the next begins"),
            Option(
                "--left", "",
                "Also says on the standard error how many calls are left in the collector's hand and on the desk",
            ),
        ),
    ),
    Command(
        "denials", "Runs FILE as `sim` does, or replays a trace on it, and prints what the interlock denied",
        "<FILE> <ROUNDS|TRACE> [PRESS]...",
        (FIRE, CALLS, Option(
            "--all", "",
            "Also shows each stop at the top or the bottom, which no program can avoid",
        ), CUT, JSON),
    ),
    Command(
        "watch", "Runs FILE as `sim` does, or replays a trace on it, and prints values after each round, as CSV",
        "<FILE> <ROUNDS|TRACE> <NAME>...",
        (FIRE, CALLS, Option("--changes", "", "Leaves out a round whose values are those of the round before"), CUT),
    ),
    Command("replay", "Replays a trace on FILE and prints the image", "<FILE> <TRACE>", (CUT,)),
    Command(
        "draw", "Replays a trace on FILE and prints a picture of it, as SVG", "<FILE> <TRACE>",
        (CUT, Option(
            "--rounds", "A:B",
            "Draws the rounds from A to B alone; `A:` is up to the last one, `:B` from the first on",
        )),
    ),
    Command(
        "calls", "Replays a trace on FILE and prints its calls, from press to service, as CSV", "<FILE> <TRACE>",
        (CUT, Option(
            "--summary", "",
            "Shows how many calls there are, and how long they wait and take, in seconds; not with --json",
        ), JSON),
    ),
    Command(
        "scan", "Replays a trace on FILE and prints the last scan of TASK that it commits, instruction by instruction",
        "<FILE> <TRACE> <TASK>",
        (
            CUT,
            Option("--round", "N", "Shows the scan that is committed in round N"),
            Option(
                "--until", "LINE",
                "Shows nothing after the first instruction of LINE; with FROM:LINE nothing before that of FROM",
            ),
        ),
    ),
    Command(
        "serve", "Runs FILE by lines: R, P, K and E in, outputs back; docs/SERVE.md has the lines", "<FILE>",
        (
            Option(
                "--from", "OLD",
                "With --trace: goes on where the trace OLD ends: its calls, cars and variables are there again, "
                "every output still; TRACE begins with that state",
            ),
            Option("--trace", "TRACE", "Writes each event to TRACE, a new file, before it happens"),
            Option("--sync", "", "With --trace: has the disk write each line before it is answered"),
        ),
    ),
    Command("explain", "Says what a fault or a refusal means", "<NUMBER>"),
    Command("help", "Print this message or the help of the given subcommand(s)", "[COMMAND]..."),
)  # fmt: skip


# what the program and docs/COMMANDS.md say


def printed(program: str, *words: str) -> str:
    try:
        done = subprocess.run(
            [program, *words], stdin=subprocess.DEVNULL, capture_output=True, text=True, timeout=LONGEST
        )
    except (OSError, subprocess.SubprocessError) as why:
        raise NoHelp(f"{program} {' '.join(words)}: {why}") from why
    if done.returncode:
        raise NoHelp(f"{program} {' '.join(words)}: status {done.returncode}")
    return done.stdout


def block(text: str, head: str) -> str:
    """The lines below this head, up to an empty one."""
    return text.partition(f"\n{head}:\n")[2].partition("\n\n")[0]


def command_of(name: str, says: str, text: str) -> Command:
    """What `help NAME` prints, as a row of the table."""
    usage = re.search(r"^Usage: liftplc \w+(?: \[OPTIONS\])?(.*)$", text, re.M)
    lines = re.findall(r"^ +(?:-\w, )?(--\w+)(?: <([^>]*)>)? {2,}(.*)$", block(text, "Options"), re.M)
    options = tuple(Option(*line) for line in lines if line[0] != HELP.name)
    return Command(name, says, usage[1].strip() if usage else "", options)


def commands_of(program: str) -> list[Command]:
    listed = re.findall(r"^  (\w+) +(.*)$", block(printed(program, "help"), "Commands"), re.M)
    return [command_of(name, says, printed(program, "help", name)) for name, says in listed]


def options_of_document(text: str) -> dict[str, set[str]]:
    """The options of each command in the first table of docs/COMMANDS.md."""
    found: dict[str, set[str]] = {}
    for words in re.findall(r"^\| \[`(\w+)([^`]*)`", text, re.M):
        found.setdefault(words[0], set()).update(re.findall(r"--\w+", words[1]))
    return found


def differences(program: str, document: str, table: tuple[Command, ...] = COMMANDS) -> Iterator[str]:
    """What differs between the table, `help` and docs/COMMANDS.md, a line each. Without a program `help` isn't
    asked.
    """
    here = {it.name: it for it in table}
    if program:
        there = {it.name: it for it in commands_of(program)}
        for name in {**here, **there}:
            if here.get(name) != there.get(name):
                yield f"completions: {name}: {here.get(name)} and, in `liftplc help`, {there.get(name)}"
        if EXPLAIN.name not in printed(program, "help"):
            yield f"completions: `liftplc help` has no {EXPLAIN.name}"
    shown = options_of_document(document)
    for name in {**here, **shown}:
        found, wanted = {it.name for it in here[name].options} if name in here else None, shown.get(name)
        if name != "help" and found != wanted:
            yield (
                f"completions: options of {name}: {found and sorted(found)} and, in docs/COMMANDS.md, "
                f"{wanted and sorted(wanted)}"
            )


# completions


def short(says: str) -> str:
    return says.partition(";")[0]


def all_options(command: Command) -> tuple[Option, ...]:
    return () if command.name == "help" else (*command.options, EXPLAIN, HELP)


def words_of(command: Command) -> list[str]:
    return [it.strip("<>[].") for it in command.words.split()]


def bash(numbers: list[str]) -> str:
    names = " ".join(it.name for it in COMMANDS)
    taken = "|".join(sorted({it.name for command in COMMANDS for it in command.options if it.value in FILES}))
    plain = "|".join(
        sorted({it.name for command in COMMANDS for it in command.options if it.value and it.value not in FILES})
    )
    cases = "\n".join(
        f'        {it.name}) options="{" ".join(option.name for option in all_options(it))}" ;;'
        for it in COMMANDS
        if all_options(it)
    )
    return f"""# Completions of liftplc for bash.
_liftplc() {{
    local word="${{COMP_WORDS[COMP_CWORD]}}" before="${{COMP_WORDS[COMP_CWORD-1]}}" command="" options="" at
    for ((at = 1; at < COMP_CWORD; at++)); do
        [[ ${{COMP_WORDS[at]}} == -* ]] || {{ command="${{COMP_WORDS[at]}}"; break; }}
    done
    COMPREPLY=()
    case "$command" in
        "") mapfile -t COMPREPLY < <(compgen -W "{names} {EXPLAIN.name} {HELP.name} --version" -- "$word"); return ;;
        help) mapfile -t COMPREPLY < <(compgen -W "{names}" -- "$word"); return ;;
{cases}
    esac
    if [[ $word == -* ]]; then
        mapfile -t COMPREPLY < <(compgen -W "$options" -- "$word")
        return
    fi
    case "$before" in
        {plain}) return ;;
        {taken}) ;;
        *) [[ $command != explain ]] || {{ \
mapfile -t COMPREPLY < <(compgen -W "{" ".join(numbers)}" -- "$word"); return; }} ;;
    esac
    compopt -o filenames
    mapfile -t COMPREPLY < <(compgen -f -- "$word")
}}
complete -F _liftplc liftplc
"""


def zsh_text(says: str) -> str:
    """What stands between brackets inside single quotes."""
    return re.sub(r"([\[\]:\\])", r"\\\1", short(says).replace("`", "").replace("'", "’"))


def zsh_kind(word: str, numbers: list[str]) -> str:
    if word in FILES:
        return f"{word.replace('|', ' or ')}:_files"
    return {"NUMBER": f"NUMBER:({' '.join(numbers)})", "COMMAND": "COMMAND:_liftplc_commands"}.get(
        word, f"{word.replace(':', chr(92) + ':')}: "
    )


def zsh_case(command: Command, numbers: list[str]) -> str:
    values = {it: f":{zsh_kind(it.value, numbers)}" if it.value else "" for it in all_options(command)}
    options = [f"'{it.name}{'=' if value else ''}[{zsh_text(it.says)}]{value}'" for it, value in values.items()]
    shown = command.words.split()
    words = [
        f"'{'*' if shown[at].endswith('...') else at + 1}:{zsh_kind(word, numbers)}'"
        for at, word in enumerate(words_of(command))
    ]
    return f"        {command.name}) _arguments {' '.join([*options, *words])} ;;"


def zsh(numbers: list[str]) -> str:
    rows = "\n".join(f"        '{it.name}:{zsh_text(it.says)}'" for it in COMMANDS)
    cases = "\n".join(zsh_case(it, numbers) for it in COMMANDS)
    return f"""#compdef liftplc
# Completions of liftplc for zsh.

_liftplc_commands() {{
    local -a commands=(
{rows}
    )
    _describe command commands
}}

_liftplc() {{
    local context state state_descr line
    typeset -A opt_args
    _arguments -C '--version[Print version]' '--help[Print help]' '1:command:_liftplc_commands' '*::word:->words'
    [[ $state == words ]] || return
    case $words[1] in
{cases}
    esac
}}

_liftplc "$@"
"""


def fish_text(says: str) -> str:
    return short(says).replace("\\", "\\\\").replace("'", "\\'")


def fish_lines(command: Command, numbers: list[str]) -> Iterator[str]:
    yield f"complete -c liftplc -n __fish_use_subcommand -f -a {command.name} -d '{fish_text(command.says)}'"
    seen = f"-n '__fish_seen_subcommand_from {command.name}'"
    for it in all_options(command):
        value = "" if not it.value else " -r" if it.value in FILES else " -x"
        yield f"complete -c liftplc {seen} -l {it.name[2:]}{value} -d '{fish_text(it.says)}'"
    if not set(words_of(command)) & FILES:
        given = numbers if command.name == "explain" else [it.name for it in COMMANDS]
        yield f"complete -c liftplc {seen} -f -a '{' '.join(given)}'"


def fish(numbers: list[str]) -> str:
    lines = [line for it in COMMANDS for line in fish_lines(it, numbers)]
    return "\n".join(
        [
            "# Completions of liftplc for fish.",
            "complete -c liftplc -n __fish_use_subcommand -l version -d 'Print version'",
            *lines,
            "",
        ]
    )
