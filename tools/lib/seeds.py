"""The texts of examples/ and of the cases in crates/test_cases."""
import os, re

TOP = os.path.dirname(os.path.dirname(os.path.dirname(os.path.realpath(__file__))))
SEED_LIMIT = 4096  # bytes; longer texts are no seeds
ESCAPED = re.compile(rb"\\(?:([nrt])|x([0-9a-f]{2}))")


def of_rows(lines):
    """The files of the cases in crates/test_cases: see its README."""
    files, last = {}, None
    for line in lines:
        times, rest = 1, line
        if found := re.match(rb"\*(\d+)([+=].*)", line):
            times, rest = int(found[1]), found[2]
        kind, what = rest[:1], rest[1:]
        if kind == b"@":
            if what in files:
                yield files[what]
            files[what], last = b"", what
        elif last is not None and kind == b"+":
            files[last] += (what + b"\n") * times
        elif last is not None and kind == b"=":
            files[last] += ESCAPED.sub(unescaped, what) * times
        elif last is not None and kind == b"&":
            files[last] += files.get(what, b"")
    yield from files.values()


def unescaped(found):
    return {b"n": b"\n", b"r": b"\r", b"t": b"\t"}[found[1]] if found[1] else bytes([int(found[2], 16)])


def seeds():
    texts = {}
    for name in sorted(os.listdir(f"{TOP}/examples")):
        if name.endswith(".il"):
            with open(f"{TOP}/examples/{name}", "rb") as file:
                texts[file.read()] = None
    with open(f"{TOP}/crates/test_cases/stdin", "rb") as file:
        texts.update(dict.fromkeys(of_rows(file.read().split(b"\n"))))
    return [text for text in texts if 0 < len(text) <= SEED_LIMIT]
