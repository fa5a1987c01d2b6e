"""Manual pages in roff: of docs/COMMANDS.md, of docs/SERVE.md, and of what a tool says at its top.

Markdown is read as far as these documents have it: headings, paragraphs, tables, lists, blocks of code, and `code`,
bold, italics and links in a line. A row of a table becomes an item: its first cell, and below it the others.
"""
import ast, re, textwrap
from dataclasses import dataclass, field
from typing import Iterator

from lib.release.completions import COMMANDS

INLINE = re.compile(
    r"`(?P<code>[^`]+)`|\*\*(?P<bold>.+?)\*\*|\*(?P<slanted>[^*\s][^*]*)\*|\[(?P<link>(?:`[^`]*`"
    r"|[^\]])*)\]\((?P<target>[^)]*)\)"
)
LETTERS = {"\\": r"\e", "-": r"\-", "^": r"\(ha", "~": r"\(ti", "`": r"\(ga"}
RENAMED = {"Statuses and standard error": "EXIT STATUS"}  # as manual pages call it
ONLY_IN_A_CHECKOUT = ("The launcher",)  # headings of docs/COMMANDS.md, with what is below them
SERVE_PARTS = ("Lines in", "Lines out", "The stop", "The black box", "Example", "Limits")  # of docs/SERVE.md
SENTENCE_OF_A_CHECKOUT = re.compile(
    r" All commands are called here at the top of the repository;.*?`tools/shown` calls them and compares\.", re.S
)
MOST_COLUMNS = 76  # of a call


class NoPage(Exception):
    """A document isn't as this module reads it; one line says what is missing."""


@dataclass
class Part:
    """A heading with what is below it, up to the next heading."""

    level: int
    title: str
    lines: list[str] = field(default_factory=list)


@dataclass(frozen=True)
class Page:
    """What every page has at its top and its end."""

    name: str
    says: str
    version: str
    date: str


# a line


def escaped(text: str) -> str:
    """Text as roff wants it; what isn't ASCII by its number."""
    return "".join(LETTERS.get(it, it if ord(it) < 128 else f"\\[u{ord(it):04X}]") for it in text)


def code(text: str) -> str:
    return escaped(text.replace("./liftplc", "liftplc")).replace("'", r"\(aq").replace('"', r"\(dq")


def inline(text: str) -> str:
    made, at = [], 0
    for it in INLINE.finditer(text):
        made.append(escaped(text[at : it.start()]))
        if it["code"]:
            made.append(rf"\fB{code(it['code'])}\fR")
        elif it["bold"]:
            made.append(rf"\fB{escaped(it['bold'])}\fR")
        elif it["slanted"]:
            made.append(rf"\fI{escaped(it['slanted'])}\fR")
        else:
            made.append(inline(it["link"]))
        at = it.end()
    return "".join(made) + escaped(text[at:])


def own_line(text: str) -> str:
    """A line of text that is no request, whatever it begins with."""
    made = inline(text.strip())
    return rf"\&{made}" if made[:1] in (".", "'") else made


# blocks


def shown(lines: list[str]) -> list[str]:
    """Lines as they are."""
    return [
        ".PP",
        ".in +2n",
        ".EX",
        *(rf"\&{code(it)}" if it[:1] in (".", "'") else code(it) for it in lines),
        ".EE",
        ".in",
    ]


def item(tag: str, cells: list[str]) -> list[str]:
    return [".TP", own_line(tag), ".br\n".join(f"{own_line(it)}\n" for it in cells if it).rstrip("\n") or r"\&"]


def cells(line: str) -> list[str]:
    return [it.strip().replace(r"\|", "|") for it in re.split(r"(?<!\\)\|", line.strip())[1:-1]]


def table(lines: list[str]) -> list[str]:
    """Beyond two columns each cell has the head of its column in front. A row without a first cell goes on with that of
    the row before.
    """
    heads, *rows = [cells(it) for it in lines if not re.fullmatch(r"[|\-: ]+", it.strip())]
    if any(len(it) != len(heads) for it in rows):
        raise NoPage(f"a row of the table `{lines[0]}` has another number of cells")
    made, tag = [], ""
    for first, *others in rows:
        tag = first or tag
        named = others if len(heads) < 3 else [f"{head}: {it}" if it else "" for head, it in zip(heads[1:], others)]
        made += item(tag, named)
    return made


def bullets(lines: list[str]) -> list[str]:
    made: list[str] = []
    for it in re.split(r"\n(?=- |\d+\. )", "\n".join(lines)):
        mark, _, text = it.partition(" ")
        made += [rf".IP {chr(92)}(bu 3" if mark == "-" else f".IP {mark} 4", own_line(" ".join(text.split()))]
    return made


def blocks(lines: list[str]) -> Iterator[list[str]]:
    """Each block of Markdown: a fenced one whole, others as far as the next empty line or another kind of line."""
    at = 0
    while at < len(lines):
        end = at + 1
        if not lines[at].strip():
            at = end
            continue
        if lines[at].startswith("```"):
            while not lines[end].startswith("```"):
                end += 1
            end += 1
        elif lines[at].startswith("|"):
            while end < len(lines) and lines[end].startswith("|"):
                end += 1
        else:
            while end < len(lines) and lines[end].strip() and not lines[end].startswith(("|", "```")):
                end += 1
        yield lines[at:end]
        at = end


def roff(lines: list[str]) -> list[str]:
    made: list[str] = []
    for block in blocks(lines):
        if block[0].startswith("```"):
            made += shown(block[1:-1])
        elif block[0].startswith("|"):
            made += table(block)
        elif re.match(r"- |1\. ", block[0]):
            made += bullets(block)
        elif all(it.startswith("    ") for it in block):
            made += shown([it[4:] for it in block])
        else:
            made += [".PP", own_line(" ".join(it.strip() for it in block))]
    return made


# documents


def parts_of(text: str) -> list[Part]:
    """Its headings; a line in a block of code is none."""
    parts, is_code = [Part(0, "")], False
    for line in text.splitlines():
        is_code ^= line.startswith("```")
        heading = None if is_code else re.match(r"(#+) (.*)", line)
        if heading:
            parts.append(Part(len(heading[1]), heading[2]))
        else:
            parts[-1].lines.append(line)
    return parts[1:]


def without(parts: list[Part], titles: tuple[str, ...]) -> list[Part]:
    """The parts but those with these titles, and what is below them."""
    kept, hidden = [], 0
    for it in parts:
        if hidden and it.level > hidden:
            continue
        hidden = it.level if it.title in titles else 0
        if not hidden:
            kept.append(it)
    return kept


def section(part: Part) -> list[str]:
    title = RENAMED.get(part.title, part.title)
    return [f".SH {escaped(title.upper())}" if part.level == 2 else f".SS {escaped(title)}", *roff(part.lines)]


def page(of: Page, synopsis: list[str], body: list[str], also: str) -> str:
    head = [
        f'.TH {escaped(of.name.upper())} 1 "{of.date}" "{escaped(f"liftplc {of.version}")}" "User Commands"',
        ".nh",
        ".ad l",
        ".SH NAME",
        rf"{escaped(of.name)} \- {inline(of.says)}",
        ".SH SYNOPSIS",
    ]
    return "\n".join([*head, *synopsis, *body, ".SH SEE ALSO", also, ""])


def synopsis(rows: list[str]) -> list[str]:
    """A line each; what is typed as it is stands bold, what is replaced in italics."""
    made: list[str] = []
    for row in rows:
        words = re.sub(
            r"(?<![\w-])(--?[\w-]+|liftplc|[a-z]\w*)|([A-Z][A-Z:]*)",
            lambda it: rf"\fB{escaped(it[1])}\fR" if it[1] else rf"\fI{it[2]}\fR",
            row,
        )
        made += [".br", words] if made else [words]
    return made


def documents(names: str) -> str:
    return f"{names}; docs/LANGUAGE.md, docs/FAULTS.md, docs/TRACE.md, docs/SERVE.md and others in share/liftplc"


def commands_page(text: str, version: str, date: str) -> str:
    """liftplc(1), of docs/COMMANDS.md."""
    first, *parts = without(parts_of(text), ONLY_IN_A_CHECKOUT)
    intro, found = SENTENCE_OF_A_CHECKOUT.subn("", "\n".join(first.lines))
    missing = {*RENAMED, *(it.name for it in COMMANDS if it.name != "help")} - {it.title for it in parts}
    if missing or not found:
        raise NoPage(
            f"docs/COMMANDS.md has no part {', '.join(sorted(missing))}"
            if missing
            else "docs/COMMANDS.md says at its top something new"
        )
    lines = intro.splitlines()
    rows = [cells(it) for it in lines if it.startswith("| [`") and not it.startswith("| [`help`")]
    calls = [f"liftplc {re.sub(r'^.`|`]?.*$', '', row[0])}" for row in rows]
    of = Page("liftplc", "runs lift groups on programs in Instruction List", version, date)
    body = [".SH DESCRIPTION", *roff(lines), *(line for it in parts for line in section(it))]
    return page(of, synopsis([*calls, "liftplc help [COMMAND]"]), body, documents(r"\fBliftplc\-serve\fR(1)"))


def serve_page(text: str, version: str, date: str) -> str:
    """liftplc-serve(1), of the parts of docs/SERVE.md on the command and its lines."""
    first, *parts = parts_of(text)
    begins = {it.title: at for at, it in enumerate(parts) if it.level == 2}
    if missing := set(SERVE_PARTS) - set(begins):
        raise NoPage(f"docs/SERVE.md has no part {', '.join(sorted(missing))}")
    body = [".SH DESCRIPTION", *roff(first.lines)]
    for title in SERVE_PARTS:
        at = begins[title]
        below = next((end for end in range(at + 1, len(parts)) if parts[end].level == 2), len(parts))
        body += [line for it in parts[at:below] for line in section(it)]
    of = Page("liftplc-serve", "runs a lift group by lines: fields in, outputs back", version, date)
    return page(
        of, synopsis(["liftplc serve FILE [--from OLD] [--trace TRACE] [--sync]"]), body, documents(r"\fBliftplc\fR(1)")
    )


# tools


def folded(line: str) -> list[str]:
    """A call, in pieces that fit."""
    return textwrap.wrap(line, MOST_COLUMNS, subsequent_indent="    ", break_long_words=False, break_on_hyphens=False)


def columns(paragraph: str) -> list[str]:
    """Lines with columns, as items. A line that begins with a blank goes on with the one before; one without columns is
    a paragraph.
    """
    made: list[str] = []
    for line in re.sub(r"\n\s+", " ", paragraph).splitlines():
        first, *others = re.split(r" {2,}", line.strip())
        made += item(first, ["; ".join(others)]) if others else [".PP", own_line(first)]
    return made


def tool_page(source: str, path: str, command: str, version: str, date: str) -> str:
    """The page of a tool, of the docstring at its top; it is called by the name that it is installed under."""
    doc = ast.get_docstring(ast.parse(source))
    if not doc:
        raise NoPage(f"{path} says nothing at its top")
    says, *paragraphs = doc.replace(path, command).split("\n\n")
    usage = next((it for it in paragraphs if it.startswith("usage:")), None)
    if usage is None:
        raise NoPage(f"{path} has no usage at its top")
    first = " ".join(says.split()).rstrip(".")
    body = [".SH DESCRIPTION", ".PP", own_line(f"{first}.")]
    for it in paragraphs:
        if it is not usage:
            body += columns(it) if re.search(r"\S {2,}\S", it) else [".PP", own_line(" ".join(it.split()))]
    calls = [re.sub(r"^(usage: | {7})", "", it) for it in usage.splitlines()]
    calls = [re.sub(r" {3,}", "  ", it) for it in calls]
    of = Page(command, first[0].lower() + first[1:].partition(":")[0], version, date)
    return page(of, shown([piece for it in calls for piece in folded(it)]), body, documents(r"\fBliftplc\fR(1)"))
