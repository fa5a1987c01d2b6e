"""Writes a tree of files and links as an archive and as a Debian package, so that the same tree gives the same bytes:
names are sorted, all times are one, all belongs to root, and modes are those of the tree, whatever the machine has.
"""
import hashlib, io, os, shutil, subprocess, tarfile, tempfile

from lib.release.contents import FOLDER, PLAIN, File, Link, Tree
from lib.release.lists import folders_of
from lib.release.repository import LONGEST, Trouble

PACKERS = {
    "zst": ["zstd", "-q", "-15", "--single-thread", "-c"],
    "xz": ["xz", "-q", "-9", "-T1", "-c"],
}  # the first that is there
LINK_MODE = 0o777


def packed(data: bytes) -> tuple[str, bytes]:
    """The ending of the name, and the bytes."""
    kind = next((it for it, words in PACKERS.items() if shutil.which(words[0])), None)
    if kind is None:
        raise Trouble(3, "neither zstd nor xz is on the path")
    done = subprocess.run(PACKERS[kind], input=data, capture_output=True, timeout=LONGEST)
    if done.returncode:
        raise Trouble(3, f"{PACKERS[kind][0]}: status {done.returncode}")
    return kind, done.stdout


def member(name: str, it: File | Link | None, time: int) -> tarfile.TarInfo:
    made = tarfile.TarInfo(name)
    made.mtime, made.uname, made.gname = time, "root", "root"
    if it is None:
        made.type, made.mode = tarfile.DIRTYPE, FOLDER
    elif isinstance(it, Link):
        made.type, made.mode, made.linkname = tarfile.SYMTYPE, LINK_MODE, it.target
    else:
        made.mode, made.size = it.mode, len(it.data)
    return made


def tar(tree: Tree, top: str, time: int) -> bytes:
    """The tree below a folder `top`."""
    room = io.BytesIO()
    entries = {
        top: None,
        **{f"{top}/{it}": None for it in folders_of(list(tree))},
        **{f"{top}/{path}": it for path, it in tree.items()},
    }
    with tarfile.open(fileobj=room, mode="w", format=tarfile.GNU_FORMAT) as archive:
        for name, it in sorted(entries.items()):
            archive.addfile(member(name, it, time), io.BytesIO(it.data) if isinstance(it, File) else None)
    return room.getvalue()


def write(tree: Tree, folder: str, time: int):
    """The tree as files of a folder, which isn't there yet."""
    os.mkdir(folder)
    names = sorted(folders_of(list(tree)))
    for name in names:
        os.mkdir(f"{folder}/{name}")
    for path, it in tree.items():
        if isinstance(it, Link):
            os.symlink(it.target, f"{folder}/{path}")
        else:
            with open(f"{folder}/{path}", "wb") as file:
                file.write(it.data)
            os.chmod(f"{folder}/{path}", it.mode)
        os.utime(f"{folder}/{path}", (time, time), follow_symlinks=False)
    for name in [*reversed(names), ""]:
        os.chmod(f"{folder}/{name}", FOLDER)
        os.utime(f"{folder}/{name}", (time, time))


def deb(tree: Tree, control: str, time: int, to: str):
    """A package that installs the tree below /usr."""
    sums = "".join(
        f"{hashlib.md5(it.data).hexdigest()}  usr/{path}\n" for path, it in sorted(tree.items()) if isinstance(it, File)
    )
    whole: Tree = {f"usr/{path}": it for path, it in tree.items()}
    whole |= {"DEBIAN/control": File(control.encode(), PLAIN), "DEBIAN/md5sums": File(sums.encode(), PLAIN)}
    with tempfile.TemporaryDirectory(prefix="liftplc-release-") as room:
        write(whole, f"{room}/tree", time)
        words = [
            "dpkg-deb",
            "--root-owner-group",
            "--threads-max=1",
            "-Zxz",
            "-z6",
            "--build",
            f"{room}/tree",
            f"{room}/made.deb",
        ]
        env = {**os.environ, "SOURCE_DATE_EPOCH": str(time), "LC_ALL": "C"}
        done = subprocess.run(words, env=env, stdin=subprocess.DEVNULL, capture_output=True, text=True, timeout=LONGEST)
        if done.returncode:
            raise Trouble(3, f"dpkg-deb: {(done.stderr.strip() or f'status {done.returncode}').splitlines()[-1]}")
        with open(f"{room}/made.deb", "rb") as file:
            put(to, file.read())


def put(path: str, data: bytes):
    """A new file, whole or not at all."""
    try:
        os.makedirs(os.path.dirname(path), exist_ok=True)
        with open(f"{path}.new", "wb") as file:
            file.write(data)
        os.replace(f"{path}.new", path)
    except OSError as why:
        raise Trouble(3, f"{path}: {why.strerror}") from why
