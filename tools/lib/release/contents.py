"""What is in a release, and where: files and links below a prefix, such as /usr.

bin, lib, include and share/man are what an installation has; share/liftplc is laid out as a checkout, so that the
tools, the gateways and the documents find one another there as they do in the repository.
"""
import ast, gzip, os, re
from dataclasses import dataclass
from typing import Callable

from lib.release import completions, manual
from lib.release.repository import TOP, Build, Commit, Trouble, files, read, text

HOME = "share/liftplc"
TOOLS = (
    "building",
    "chain",
    "from-plcopen",
    "group",
    "monitor",
    "st",
    "tee-serve",
)  # of tools/; each is a command, as is gateways/modbus
COMMANDS = {f"liftplc-{name}": f"tools/{name}" for name in TOOLS} | {"liftplc-modbus": "gateways/modbus"}
BESIDE = {  # what files of Python read
    "tools/monitor": ["tools/monitor.html"],
    "tools/lib/st_read.py": ["tools/lib/st.lark"],
    "tools/lib/group_text.py": ["tools/lib/group"],
}
WHOLE = ("README.md", "CHANGELOG.md", "LICENSE", "docs", "examples", "editors", "gateways/modbus", "gateways/lib")
UNIT = "gateways/liftplc.service"
UNIT_HOME = "/opt/liftplc/gateways/"  # where the repository's unit has the gateway
FOLDER, EXECUTABLE, PLAIN = 0o755, 0o755, 0o644  # modes


@dataclass(frozen=True)
class File:
    data: bytes
    mode: int = PLAIN


@dataclass(frozen=True)
class Link:
    target: str


@dataclass(frozen=True)
class Layout:
    """What differs between the archive and the Debian package."""

    prefix: str  # where the unit for systemd looks
    zsh: str
    is_debian: bool


Tree = dict[str, File | Link]
ARCHIVE = Layout("/opt/liftplc", "share/zsh/site-functions", False)
DEBIAN = Layout("/usr", "share/zsh/vendor-completions", True)


def imported(path: str) -> set[str]:
    """The modules of tools/lib and gateways/lib that a file of Python imports."""
    names = {
        it.module
        for it in ast.walk(ast.parse(text(path)))
        if isinstance(it, ast.ImportFrom) and (it.module or "").startswith("lib.")
    }
    found = set()
    for name in sorted(filter(None, names)):
        places = [f"{top}/{name.replace('.', '/')}.py" for top in ("tools", "gateways")]
        found.add(next((it for it in places if os.path.exists(f"{TOP}/{it}")), places[0]))
    return found


def needed(paths: set[str]) -> set[str]:
    """These files of Python, what they import, and what they read beside them."""
    all, new = set(), set(paths)
    while new:
        all |= new
        new = {it for path in new for it in imported(path)} - all
    return all | {it for path in all for it in BESIDE.get(path, [])}


def as_it_is(path: str) -> File:
    return File(read(f"{TOP}/{path}"), EXECUTABLE if os.access(f"{TOP}/{path}", os.X_OK) else PLAIN)


def link(path: str, to: str) -> Link:
    return Link(os.path.relpath(to, os.path.dirname(path)))


def zipped(data: str) -> File:
    return File(gzip.compress(data.encode("utf-8"), 9, mtime=0))


def unit(prefix: str) -> str:
    """The unit for systemd with the place of the release in it, and a head of its own."""
    head, begin, rest = text(UNIT).partition("\n[Unit]\n")
    if not begin or rest.count(UNIT_HOME) != 1:
        raise Trouble(3, f"{UNIT} isn't as tools/release reads it")
    lines = [
        head.split("\n")[0],
        "#",
        (
            "# It is not enabled. Write the group's text to /etc/liftplc/group.il, "
            "and the field's address into a copy of this file, which is"
        ),
        (
            "# /etc/systemd/system/liftplc.service; then `systemctl enable --now liftplc`. "
            "Traces and logs are in /var/lib/liftplc."
        ),
    ]
    return "\n".join([*lines, "", "[Unit]", rest.replace(UNIT_HOME, f"{prefix}/{HOME}/gateways/")])


def library(build: Build) -> Tree:
    if not build.library:
        return {}
    header, archive = "include/liftplc.h", "lib/libliftplc.a"
    return {
        archive: File(build.library),
        header: as_it_is(header),
        "lib/pkgconfig/liftplc.pc": as_it_is("include/liftplc.pc"),
        f"{HOME}/{header}": link(f"{HOME}/{header}", header),
        f"{HOME}/build/libliftplc.a": link(f"{HOME}/build/libliftplc.a", archive),
    }


def checkout(build: Build, version: str) -> Tree:
    """share/liftplc: what is as in the repository, and links to the program where the tools look for it; an unproved
    one is where they warn of it.
    """
    python = {f"tools/{name}" for name in TOOLS} | {
        it for it in files("gateways/modbus", "gateways/lib", "examples/modbus") if not it.endswith(".md")
    }
    tree: Tree = {f"{HOME}/{path}": as_it_is(path) for path in files(*WHOLE, *sorted(needed(python)))}
    tree[f"{HOME}/VERSION"] = File(f"{version}\n".encode())
    for path in ("liftplc", "build/liftplc" if build.is_proved else "build/unproved/liftplc"):
        tree[f"{HOME}/{path}"] = link(f"{HOME}/{path}", "bin/liftplc")
    tree[f"{HOME}/{UNIT}"] = link(f"{HOME}/{UNIT}", "lib/systemd/system/liftplc.service")
    return tree


def pages(version: str, date: str) -> Tree:
    made = {
        "liftplc": manual.commands_page(text("docs/COMMANDS.md"), version, date),
        "liftplc-serve": manual.serve_page(text("docs/SERVE.md"), version, date),
    }
    made |= {command: manual.tool_page(text(path), path, command, version, date) for command, path in COMMANDS.items()}
    return {f"share/man/man1/{name}.1.gz": zipped(page) for name, page in made.items()}


def numbers() -> list[str]:
    """Those of faults and refusals, which `explain` knows."""
    return [str(int(it[1])) for it in map(re.compile(r"docs/faults/(\d+)\.md").fullmatch, files("docs/faults")) if it]


def completed(layout: Layout) -> Tree:
    made: dict[str, Callable[[list[str]], str]] = {
        "share/bash-completion/completions/liftplc": completions.bash,
        f"{layout.zsh}/_liftplc": completions.zsh,
        "share/fish/vendor_completions.d/liftplc.fish": completions.fish,
    }
    return {path: File(make(numbers()).encode()) for path, make in made.items()}


def contents(layout: Layout, build: Build, version: str, date: str) -> Tree:
    """All but the lists of it, MANIFEST and the SPDX file."""
    tree: Tree = {
        "bin/liftplc": File(build.program, EXECUTABLE),
        "lib/systemd/system/liftplc.service": File(unit(layout.prefix).encode()),
    }
    tree |= {f"bin/{command}": link(f"bin/{command}", f"{HOME}/{path}") for command, path in COMMANDS.items()}
    return tree | library(build) | checkout(build, version) | pages(version, date) | completed(layout)


# of a Debian package alone

MAINTAINER = "Panravine maintainers <maintainers@users.noreply.panravine.example>"
COPYRIGHT = """Format: https://www.debian.org/doc/packaging-manuals/copyright-format/1.0/
Upstream-Name: Panravine

Files: *
Copyright: 2026 the Panravine authors
License: Apache-2.0
 On Debian systems the text of this licence is in
 /usr/share/common-licenses/Apache-2.0.
"""


# What lintian is told: the program is installed as it was built and tried, and the library where `./liftplc --install`
# puts it, so that its .pc file fits.
OVERRIDES = "liftplc: unstripped-binary-or-object [usr/bin/liftplc]\n"
OF_THE_LIBRARY = "liftplc: pkg-config-unavailable-for-cross-compilation [usr/lib/pkgconfig/liftplc.pc]\n"


def debian_documents(version: str, commit: Commit, build: Build, when: str) -> Tree:
    points = f"  * /usr/{HOME}/CHANGELOG.md has the changes.\n  * Commit {commit.name}."
    change = f"liftplc ({version}) unstable; urgency=medium\n\n{points}\n\n -- {MAINTAINER}  {when}\n"
    return {
        "share/doc/liftplc/copyright": File(COPYRIGHT.encode()),
        "share/doc/liftplc/changelog.gz": zipped(change),
        "share/lintian/overrides/liftplc": File((OVERRIDES + (OF_THE_LIBRARY if build.library else "")).encode()),
    }


def libc_of(program: bytes) -> str:
    """The least version of the C library that has each symbol of the program."""
    found = [tuple(map(int, it)) for it in re.findall(rb"GLIBC_(\d+)\.(\d+)\0", program)]
    if not found:
        raise Trouble(3, "the program names no version of the C library")
    return ".".join(map(str, max(found)))


def control(tree: Tree, build: Build, version: str) -> str:
    kib = sum(-(-len(it.data) // 1024) if isinstance(it, File) else 1 for it in tree.values())
    needs = [
        f"libc6 (>= {libc_of(build.program)})",
        *(["libgcc-s1"] if b"libgcc_s.so.1\0" in build.program else []),
        "python3 (>= 3.10)",
    ]
    says = "" if build.is_proved else "\n .\n This build is unproved: it is for trying texts, not for a building."
    return f"""Package: liftplc
Version: {version}
Architecture: amd64
Maintainer: {MAINTAINER}
Installed-Size: {kib}
Depends: {", ".join(needs)}
Recommends: python3-lark
Suggests: python3-pymodbus
Section: electronics
Priority: optional
Description: controller of a lift group, with programs in Instruction List
 liftplc checks a configuration of a lift group, whose programs are
 Instruction List of IEC 61131-3, runs it on a simulated plant or behind a
 gateway to a real one, and draws and replays its traces. It replaces no
 safety chain.{says}
"""
