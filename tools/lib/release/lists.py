"""What a release was made from, as lists: MANIFEST, which names each file too, and an SPDX 2.3 document as JSON."""
import datetime, hashlib, json, os
from dataclasses import dataclass

from lib.release.contents import HOME, File, Link, Tree
from lib.release.repository import NOT_PROVED, PROVED, Build, Commit, Crate

MANIFEST, SPDX = f"{HOME}/MANIFEST", f"{HOME}/liftplc.spdx.json"
LICENCE = "Apache-2.0"
NAMESPACE = "https://panravine.example/spdx"  # nothing has to be there


@dataclass(frozen=True)
class Source:
    """What a release was made from."""

    version: str
    commit: Commit
    build: Build
    crates: list[Crate]

    def kit(self) -> str:
        return self.build.kit if self.build.is_proved else "unknown"

    def state(self) -> str:
        return PROVED if self.build.is_proved else NOT_PROVED


def iso(time: int) -> str:
    return datetime.datetime.fromtimestamp(time, datetime.timezone.utc).strftime("%Y-%m-%dT%H:%M:%SZ")


def sha256(data: bytes) -> str:
    return hashlib.sha256(data).hexdigest()


def folders_of(paths: list[str]) -> list[str]:
    """The folders that these paths are in, those inside others first."""
    found = {""}
    for path in paths:
        while (path := os.path.dirname(path)) not in found:
            found.add(path)
    return sorted(found - {""}, reverse=True)


def manifest(tree: Tree, source: Source) -> str:
    """A line each. Those of files are as `sha256sum` writes them, behind the word; folders come last, those inside
    others first.
    """
    lines = [
        f"liftplc {source.version}",
        f"commit {source.commit.name}",
        f"time {iso(source.commit.time)}",
        f"kit {source.kit()}",
        f"program {source.state()}",
    ]
    if source.build.is_proved:
        lines.append(f"sources {source.build.sources}")
    lines += [
        f"{'crate of the kit' if it.is_of_kit else 'crate'} {it.name}{': ' * bool(it.uses)}{' '.join(it.uses)}"
        for it in source.crates
    ]
    paths = sorted([*tree, MANIFEST])
    lines += [f"file {sha256(it.data)}  {path}" for path, it in sorted(tree.items()) if isinstance(it, File)]
    lines += [f"link {path} -> {it.target}" for path, it in sorted(tree.items()) if isinstance(it, Link)]
    lines += [f"list {MANIFEST}", *(f"folder {it}" for it in folders_of(paths))]
    return "\n".join([*lines, ""])


def spdx_id(kind: str, name: str) -> str:
    return f"SPDXRef-{kind}-{name.replace('_', '-')}"


def package(id: str, name: str, version: str, says: str, licence: str = "NOASSERTION") -> dict:
    made = {
        "SPDXID": id,
        "name": name,
        "versionInfo": version,
        "sourceInfo": says,
        "downloadLocation": "NOASSERTION",
        "filesAnalyzed": False,
    }
    return made | {"licenseConcluded": "NOASSERTION", "licenseDeclared": licence, "copyrightText": "NOASSERTION"}


def spdx_file(path: str, data: bytes) -> dict:
    sums = [
        {"algorithm": "SHA1", "checksumValue": hashlib.sha1(data).hexdigest()},
        {"algorithm": "SHA256", "checksumValue": sha256(data)},
    ]
    made = {"SPDXID": f"SPDXRef-file-{sha256(path.encode())[:16]}", "fileName": f"./{path}", "checksums": sums}
    return made | {
        "licenseConcluded": "NOASSERTION",
        "licenseInfoInFiles": ["NOASSERTION"],
        "copyrightText": "NOASSERTION",
    }


def relation(one: str, kind: str, other: str) -> dict:
    return {"spdxElementId": one, "relationshipType": kind, "relatedSpdxElement": other}


def made_from(source: Source) -> list[str]:
    """The names of the crates that the program, and the library for C where it is there, are made from."""
    uses = {it.name: it.uses for it in source.crates}
    found, new = set(), {"liftplc", *(["liftplc_c"] if source.build.library else [])}
    while new:
        found |= new
        new = {it for name in new for it in uses.get(name, ())} - found
    return [it.name for it in source.crates if it.name in found]


def spdx(tree: Tree, source: Source) -> str:
    """The release with its files, the crates of the commit, those of the kit, and the kit. What a proved program is
    made from is said too.
    """
    main, kit = "SPDXRef-liftplc", "SPDXRef-kit"
    files = [spdx_file(path, it.data) for path, it in sorted(tree.items()) if isinstance(it, File)]
    code = hashlib.sha1("".join(sorted(it["checksums"][0]["checksumValue"] for it in files)).encode()).hexdigest()
    ids = {it.name: spdx_id("kit-crate" if it.is_of_kit else "crate", it.name) for it in source.crates}
    release = package(
        main, "liftplc", source.version, f"commit {source.commit.name}; the program is {source.state()}", LICENCE
    ) | {
        "filesAnalyzed": True,
        "packageVerificationCode": {
            "packageVerificationCodeValue": code,
            "packageVerificationCodeExcludedFiles": [f"./{it}" for it in (MANIFEST, SPDX)],
        },
        "licenseInfoFromFiles": ["NOASSERTION"],
    }
    is_proved = source.build.is_proved
    kit_package = package(
        kit,
        "Rattle kit",
        source.kit(),
        "it proved and built the program" if is_proved else "which one built the program isn't known",
    )
    own = [
        package(ids[it.name], it.name, source.version, f"commit {source.commit.name}", LICENCE)
        for it in source.crates
        if not it.is_of_kit
    ]
    others = [
        package(ids[it.name], it.name, source.kit(), "a crate of the Rattle kit")
        for it in source.crates
        if it.is_of_kit
    ]
    relations = [relation("SPDXRef-DOCUMENT", "DESCRIBES", main), relation(kit, "BUILD_TOOL_OF", main)]
    relations += [relation(main, "CONTAINS", it["SPDXID"]) for it in files]
    relations += [relation(main, "GENERATED_FROM", ids[it]) for it in made_from(source) if is_proved]
    relations += [relation(ids[it.name], "DEPENDS_ON", ids[used]) for it in source.crates for used in it.uses]
    document = {
        "spdxVersion": "SPDX-2.3",
        "dataLicense": "CC0-1.0",
        "SPDXID": "SPDXRef-DOCUMENT",
        "name": f"liftplc-{source.version}",
        "documentNamespace": f"{NAMESPACE}/liftplc-{source.version}-{code}",
        "creationInfo": {"created": iso(source.commit.time), "creators": ["Tool: tools/release"]},
        "packages": [release, kit_package, *own, *others],
        "files": files,
        "relationships": relations,
    }
    return json.dumps(document, indent=1) + "\n"
