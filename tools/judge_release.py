#!/usr/bin/env python3
"""Judges a release by its files alone: what can be computed once more is, and what wasn't checked is said.

    python3 tools/judge_release.py FOLDER [--signers FILE] [--line FILE]

It needs Python 3.9 or later and nothing else. Take it from a copy of the sources that you got another way than the release, at the commit
that BUILD names: another judge may look for what that release doesn't have. With --signers a signature has to be of a key of that file (of
ssh-keygen, as docs/releases.md has it); with --line the log's proof has to stand under a line of that file, which its owner gave you
another way; where what they ask for can't be checked, that is bad. What it says of the log's proof and of the wrong bodies rests on the
copy of the sources in which it lies: on `reference/timeweave_reference` and `tools/body_trials.py` there, and on nothing of the release.
It runs code of the release's source archive over the vectors alone: the second implementation and the verifier in Perl. Each sentence
begins with `good`, `BAD` or `not checked`; of a trial, which is no release, that is said first, with what it `lacks`. Status 0: nothing
was bad; 1: something was; 3: nothing was, but it is a trial.
"""

from __future__ import annotations

import argparse
import gzip
import hashlib
import io
import json
import lzma
import re
import shutil
import subprocess
import sys
import tarfile
import tempfile
import zlib
from fnmatch import fnmatch
from pathlib import Path
from typing import Callable, Dict, Iterator, List, NamedTuple, Optional, Set, Tuple, Union

Files = Dict[str, bytes]
"""Files by their paths."""

MOST_BYTES = 1 << 30
"""No archive of a release has more bytes, unpacked."""

TRIAL = "~trial"
"""How the version of a trial ends, which is made as a release is and lacks something that one has to have."""

READING = (
    OSError, ValueError, LookupError, EOFError, StopIteration, TypeError, MemoryError, RecursionError, zlib.error, tarfile.TarError, lzma.LZMAError,
)  # fmt: skip
"""What the reading of a file raises that isn't what it should be."""


class Bad(Exception):
    """Something isn't as it has to be; the text says what."""


def digest(data: bytes) -> str:
    """The SHA-256 digest of bytes, in hexadecimal digits."""
    return hashlib.sha256(data).hexdigest()


# ---- archives


class Packed(NamedTuple):
    """What an archive has: its files, its links with where they lead, and what its head tells of the commit."""

    files: Files
    links: Dict[str, str]
    commit: Optional[str]


def unpacked(data: bytes, front: str = "") -> Packed:
    """The files of a tar archive by their paths behind `front`.

    Raises Bad where one would lie elsewhere, isn't root's, or has a mode of its own."""
    files: Files = {}
    links: Dict[str, str] = {}
    with tarfile.open(fileobj=io.BytesIO(data), mode="r:") as tar:
        for member in tar:
            path = member.name[2:] if member.name.startswith("./") else member.name
            if path.startswith("/") or ".." in path.split("/"):
                raise Bad(f"an archive has a file at {path}")
            if member.uid or member.gid or (member.mode & 0o7002 and not member.issym()):
                raise Bad(f"{path} isn't root's, or may be written by all")
            if member.isdir() or path in ("", ".", front.rstrip("/")):
                continue
            # (a file with holes says a size of which the archive has nothing)
            if not path.startswith(front) or not (member.isreg() or member.issym()) or member.issparse() or path[len(front) :] in files:
                raise Bad(f"{path} doesn't belong into the archive")
            if member.issym():
                links[path[len(front) :]] = member.linkname
            else:
                file = tar.extractfile(member)
                files[path[len(front) :]] = file.read() if file else b""
        return Packed(files, links, (tar.pax_headers or {}).get("comment"))


def gunzipped(data: bytes) -> bytes:
    """What a file of gzip has."""
    with gzip.open(io.BytesIO(data)) as file:
        return limited(file)


def unpacked_xz(data: bytes) -> bytes:
    """What a file of xz has."""
    with lzma.open(io.BytesIO(data)) as file:
        return limited(file)


def limited(file: Union[gzip.GzipFile, lzma.LZMAFile]) -> bytes:
    """What a compressed file has, MOST_BYTES at most."""
    found = file.read(MOST_BYTES + 1)
    if len(found) > MOST_BYTES:
        raise Bad("an archive is too large")
    return found


def parts_of_deb(data: bytes) -> Tuple[Packed, Packed]:
    """The control files and the files of a package for Debian."""
    if data[:8] != b"!<arch>\n":
        raise Bad("a package is no archive of ar")
    place, found = 8, []
    while place + 60 <= len(data):
        name, digits = data[place : place + 16].decode().rstrip(" /"), data[place + 48 : place + 58].rstrip(b" ")
        if not digits.isdigit():
            raise Bad(f"a package has a part whose size is no number: {digits!r}")
        size = int(digits)
        found.append((name, data[place + 60 : place + 60 + size]))
        place += 60 + size + size % 2
    names = [name for name, _ in found]
    if names != ["debian-binary", "control.tar.xz", "data.tar.xz"] or place != len(data):
        raise Bad(f"a package has other parts than it may have, or not each once: {', '.join(names)}")
    return unpacked(unpacked_xz(found[1][1])), unpacked(unpacked_xz(found[2][1]))


# ---- what a log recorded


class Recorded(NamedTuple):
    """An event that a log recorded: whose log, in which step, and its bytes."""

    service: str
    step: int
    event: bytes


def one_event(told: str, lines: str) -> Optional[Recorded]:
    """The event of a proof that shows one event and nothing else, where lines are of its service; None where another service recorded it, whatever that one's
    events have to do with these lines."""
    found = re.fullmatch(r"accepted exists\nevent (\S+) (\d+) \d+ ([0-9a-f]*)\n(?:time \S+ \d+ \d+\n)?", told)
    if found is None or found[1] not in {line.split(" ")[0] for line in lines.splitlines()}:
        return None
    return Recorded(found[1], int(found[2]), bytes.fromhex(found[3]))


# ---- what the gate said

STAMP = re.compile(r"^ *\d+\.\d ")
CLOSING = re.compile(r"logic=(\S+) (?:.* )?functions=(\d+) (?:.* )?sum=(\w+)\b.*")
PROVED = re.compile(r"rt: (\w+) proved$")
EDIT = re.compile(r"rt: must-fail (\w+)/(\S+): (refused|.*)")
TESTS = re.compile(r"rt: (\w+): its tests passed")
FAILED = re.compile(r"rt: (?!must-fail \S+: refused).*\b(NOT PROVED|NOT REFUSED|NOT TRIED|BAD EDIT|FAILED)\b|FAILED ")
ENDED = re.compile(r"(\d+) passed, (\d+) failed$")
SKIPPED = re.compile(r"(\d+) skipped$")


class Gate:
    """What a gate's log tells of each crate, and of the acceptance run."""

    def __init__(self, log: str) -> None:
        self.closing: Dict[str, str] = {}
        self.edits: Dict[str, List[str]] = {}
        self.tested: Dict[str, bool] = {}
        self.failed: List[str] = []
        self.logics: Set[Tuple[str, str]] = set()
        self.has_cases = False
        self.ended, self.skipped, last = "", "0", ""
        for line in (STAMP.sub("", line) for line in log.splitlines()):
            last = line if CLOSING.fullmatch(line) else last
            self.take(line, last)

    def take(self, line: str, last: str) -> None:
        """Takes a line in; `last` is the closing line before it."""
        proved, edit, tests, closing = PROVED.match(line), EDIT.match(line), TESTS.match(line), CLOSING.fullmatch(line)
        if closing:
            self.logics.add((closing[1], closing[3][:16]))
        if proved:
            self.closing[proved[1]] = last
        if edit and edit[3].startswith("refused"):
            self.edits.setdefault(edit[1], []).append(edit[2])
        if tests:
            self.tested[tests[1]] = True
        if FAILED.match(line):
            self.failed.append(line)
        self.has_cases = self.has_cases or line.startswith("cases: ")
        self.ended = line if ENDED.fullmatch(line) and self.has_cases else self.ended
        self.skipped = (SKIPPED.fullmatch(line) or ["", self.skipped])[1]


def crates_of(files: Files) -> List[str]:
    """The crates of a source tree."""
    lines = files["crates.txt"].decode().splitlines()
    return [line.split(":")[0].split()[0] for line in lines if line.strip() and not line.startswith("#")]


def sources_sum(files: Files, crate: str) -> str:
    """The digest of a crate's files, in the order of their paths: of each its path, a zero byte, its length in decimal digits, a zero byte
    and its bytes."""
    total = hashlib.sha256()
    for path in sorted(path for path in files if path.startswith(f"crates/{crate}/")):
        total.update(f"{path}\0{len(files[path])}\0".encode() + files[path])
    return total.hexdigest()


def proofs_text(log: bytes, files: Files, is_trial: bool = False) -> str:
    """The file PROOFS of a gate's log and a source tree."""
    gate, lines = Gate(log.decode("utf-8", "replace")), [OF_TRIAL] * is_trial + [f"log {digest(log)}"]
    for crate in crates_of(files):
        closing = gate.closing.get(crate, "")
        functions = CLOSING.fullmatch(closing)
        lines += [
            f"crate {crate}",
            f"  sources {sources_sum(files, crate)}",
            f"  closing {closing or '-'}",
            f"  functions proved {functions[2] if functions else '-'}",
            f"  edits refused {len(gate.edits.get(crate, []))}",
            f"  tests {'passed' if gate.tested.get(crate) else 'none'}",
        ]
    return "\n".join([*lines, f"acceptance run {gate.ended or '-'}, {gate.skipped} skipped", ""])


def lacking(log: bytes, files: Files) -> List[str]:
    """What a gate's log lacks, or tells that failed, for these sources: by the logic of KIT each crate has to be proved, each edit refused,
    and no case may have failed."""
    gate, logic = Gate(log.decode("utf-8", "replace")), named(files["KIT"].decode())["logic"]
    wrong = [f"the log tells: {line[:150]}" for line in gate.failed]
    others = sorted(gate.logics - {("proved", logic)})
    wrong += [f"the log has a closing line of another logic than KIT's: {how} {found}" for how, found in others]
    for crate in crates_of(files):
        found = CLOSING.fullmatch(gate.closing.get(crate, ""))
        if found is None:
            wrong.append(f"the log doesn't tell that {crate} was proved")
        elif (found[1], found[3][:16]) != ("proved", logic):
            wrong.append(f"{crate} was proved by another logic than KIT's, or wasn't: {found[0][:80]}")
        edits = {path.split("/")[-1] for path in files if fnmatch(path, f"crates/{crate}/must-fail/*.edit")}
        untried = edits - set(gate.edits.get(crate, []))
        wrong += [f"the log doesn't tell that the planted edits of {crate} were refused: {', '.join(sorted(untried))}"] * bool(untried)
    ended = ENDED.fullmatch(gate.ended)
    if not ended or ended[2] != "0" or ended[1] == "0":
        wrong.append(f"the acceptance run ended with: {gate.ended}" if gate.ended else "the log tells of no acceptance run that ended")
    return wrong


TRIED = "docs/wrong-bodies-tried.txt"
"""The file of the sources that tells when the wrong bodies of each crate were last tried."""

BESIDE = ("SHA256SUMS", "SHA256SUMS.sig", "SHA256SUMS.proof", "SHA256SUMS.line")
"""The files of a release whose digests SHA256SUMS can't have."""

OF_TRIAL = "trial, and not a release: the lines `lacks` of BUILD tell what it lacks"
"""The line with which BUILD and PROOFS of a trial begin."""


def lay_out(files: Files, folder: Path) -> None:
    """Writes files into a folder."""
    for path, data in files.items():
        (folder / path).parent.mkdir(parents=True, exist_ok=True)
        (folder / path).write_bytes(data)


OWN = Path(__file__).resolve().parent.parent
"""The copy of the sources in which this judge lies, which its reader got another way than the release: what judges is of that copy."""


def untried(files: Files) -> List[str]:
    """What tells that not all wrong bodies of these sources were tried, as tools/body_trials.py beside this judge finds by the file that is of them."""
    own = OWN / "tools/body_trials.py"
    if not own.is_file() or own.read_bytes() != files.get("tools/body_trials.py"):
        told = "the sources have not the tools/body_trials.py that lies beside this judge, by which it reads"
        return [f"{told} {TRIED}; take the judge of the commit that BUILD names"]
    with tempfile.TemporaryDirectory(prefix="timeweave-judged-") as folder:
        lay_out(files, Path(folder))
        words = [sys.executable, "-I", "-c", BY_TRIALS, folder, str(OWN / "tools")]
        done = subprocess.run(words, capture_output=True, text=True, check=False)
    if done.returncode:
        return [f"{TRIED} of the sources can't be read: {(done.stderr.strip().splitlines() or ['no reason is told'])[-1][:300]}"]
    return [f"the wrong bodies of {done.stdout.strip()} weren't tried as these crates are"] * bool(done.stdout.strip())


BY_TRIALS = """
import sys
from pathlib import Path
top = Path(sys.argv[1])
sys.dont_write_bytecode = True
sys.path.insert(0, sys.argv[2])
import body_trials
paths = [path for part in body_trials.READ for path in (top / part, *(top / part).rglob("*")) if path.is_file()]
sources = {path.relative_to(top).as_posix(): path.read_bytes() for path in paths}
print(", ".join(body_trials.unfit_trials((top / "docs/wrong-bodies-tried.txt").read_text(), body_trials.digests(sources))))
"""


def lacks(log: bytes, files: Files) -> List[str]:
    """What a release of these sources with this log of the gate lacks."""
    return lacking(log, files) + untried(files)


def named(text: str) -> Dict[str, str]:
    """The lines of a file as KIT or BUILD by their first words; of several with one first word the first."""
    found: Dict[str, str] = {}
    for line in text.splitlines():
        name, _, rest = line.partition(" ")
        found.setdefault(name, rest)
    return found


# ---- the parts that are compiled in

LICENCE = re.compile(r"(?:MIT or Apache-2\.0|Apache-2\.0 or BSL-1\.0|MIT|Unlicense)\b")


def notice_parts(text: str) -> List[Tuple[str, str]]:
    """The crates that NOTICE tells of: each its name and what is said of it."""
    told = text.split("Crates that Timeweave names:\n")[1].split("\nThe standard library")[0]
    entries = re.findall(r"^    (\w+) +(\S.*(?:\n {8,}\S.*)*)", told, re.M)
    return [(name, " ".join(said.split())) for name, said in entries]


def spdx_licence(said: str) -> str:
    """The licences that NOTICE tells of a part, as SPDX writes them; NOASSERTION where it tells none."""
    found = [licence.replace(" or ", " OR ") for licence in LICENCE.findall(said)]
    return " AND ".join(f"({it})" if " OR " in it and len(found) > 1 else it for it in found) or "NOASSERTION"


def spdx_package(name: str, licence: str, copyright_text: str, **more: str) -> Dict[str, object]:
    """A part as SPDX tells it. Nothing is concluded of foreign parts beyond what is declared of them."""
    return {
        "name": name,
        "SPDXID": "SPDXRef-" + re.sub(r"\W|_", "-", name),
        "licenseDeclared": licence,
        "licenseConcluded": "Apache-2.0" if name == "timeweave" else "NOASSERTION",
        "copyrightText": copyright_text,
        "downloadLocation": "NOASSERTION",
        "filesAnalyzed": False,
        **more,
    }


def relation(one: object, how: str, other: object) -> Dict[str, object]:
    """How two elements of the list stand to each other."""
    return {"spdxElementId": one, "relationshipType": how, "relatedSpdxElement": other}


def sbom_text(notice: str, version: str, commit: str, when: str) -> str:
    """The list of parts, as SPDX 2.3 in JSON."""
    own = spdx_package("timeweave", "Apache-2.0", "Copyright 2026 the authors of Timeweave", versionInfo=version)
    others = []
    for name, said in notice_parts(notice):
        told = re.search(r"Copyright .*", said)
        others.append(spdx_package(name, spdx_licence(said), told[0] if told else "NOASSERTION", comment=said))
    others.append(spdx_package("standard library and runtime of the kit", "NOASSERTION", "NOASSERTION"))
    document = {
        "spdxVersion": "SPDX-2.3",
        "dataLicense": "CC0-1.0",
        "SPDXID": "SPDXRef-DOCUMENT",
        "name": f"timeweave-{version}",
        "documentNamespace": f"urn:timeweave:{version}:{commit}",
        "creationInfo": {"created": when, "creators": ["Tool: tools/release.py"]},
        "packages": [own, *others],
        "relationships": [
            relation("SPDXRef-DOCUMENT", "DESCRIBES", own["SPDXID"]),
            *(relation(own["SPDXID"], "CONTAINS", part["SPDXID"]) for part in others),
        ],
    }
    return json.dumps(document, indent=1) + "\n"


# ---- where the files of packages come from

# What the Makefile's names of folders stand for in a package, and in the tar file.
DEBIAN = {"PREFIX": "usr", "LIBDIR": "usr/lib/x86_64-linux-gnu", "PYTHONDIR": "usr/lib/python3/dist-packages"}
ELSEWHERE = {"PREFIX": "", "LIBDIR": "lib", "PYTHONDIR": "share/timeweave"}

# The part of the Makefile that packages have alone: units and their settings.
PACKED_ALONE = "install-service"

# What is made while it is packed, and so stands nowhere in the sources; besides what Debian's tools write of their own, which is held against what they write.
MADE = ("*/pkgconfig/timeweave.pc", "*share/doc/timeweave/tables/*.md")
RUN_AT_UPGRADES = "usr/share/python3/runtime.d/timeweave.rtupdate"

CHANGELOG = "debian/changelog"


def of_version(changelog: bytes, version: str) -> bytes:
    """Debian's changelog with this version at its head."""
    return re.sub(rb"^timeweave \([^)]*\)", f"timeweave ({version})".encode(), changelog, count=1)


def expanded(text: str, names: Dict[str, str]) -> str:
    """A text of the Makefile with what its names stand for; those that aren't known stand for nothing."""
    while "$(" in text:
        text = re.sub(r"\$\(([^()]*)\)", lambda found: names.get(found[1], ""), text)
    return text


def table(files: Files, folders: Dict[str, str], version: str) -> Dict[str, Optional[str]]:
    """Where the sources' `make install` puts what: each path with the file that lies there, or None for a link."""
    text = files["Makefile"].decode()
    names = dict(re.findall(r"^([A-Z]+) \??= (.*)$", text, re.M))
    names.update(folders, VERSION=version, MAJOR=version.split(".")[0], DESTDIR="")
    found: Dict[str, Optional[str]] = {}
    target = ""
    for line in text.splitlines():
        target = (re.match(r"(install[\w-]*):", line) or ["", target])[1] if not line.startswith("\t") else target
        put, link = re.fullmatch(r"\t\$\(PUT(?:_PROGRAM)?\) (-t )?(.*)", line), re.fullmatch(r"\tln -sf \S+ (\S+)", line)
        if not (put or link) or not target or (target == PACKED_ALONE and folders is not DEBIAN):
            continue
        words = [expanded(word, names).lstrip("/") for word in (put[2] if put else link[1] if link else "").split()]
        if link:
            found[words[0]] = None
        elif put and put[1]:
            for pattern in words[1:]:
                listed = [name for name in files if name.count("/") == pattern.count("/") and fnmatch(name, pattern)] if "*" in pattern else [pattern]
                found.update({f"{words[0]}/{name.split('/')[-1]}": name for name in listed})
        else:
            found[words[1]] = words[0]
    return found


def of_debian(package: str) -> Dict[str, Optional[str]]:
    """The files that Debian's tools put into each package, with those of the sources that they are."""
    return {
        f"usr/share/doc/{package}/copyright": "debian/copyright",
        f"usr/share/doc/{package}/NOTICE": "NOTICE",
        f"usr/share/doc/{package}/changelog": CHANGELOG,
        f"usr/share/lintian/overrides/{package}": f"debian/{package}.lintian-overrides",
    }


# ---- what packages say of themselves

# What a package may need by itself: what stands for it in debian/control. (What isn't named stands for nothing.)
NEEDED = {"${shlibs:Depends}": r"libc6 \(>= [0-9.]+\)", "${python3:Depends}": r"python3:any"}

# What is told besides, and what a library asks for when it is installed.
FREE = ("Source", "Installed-Size")
LDCONFIG = ["activate-noawait ldconfig"]

# The lines of the scripts by which Python's files are compiled, and what was compiled is taken away: no other script may be in a package.
SCRIPTED = r"""
#!/bin/sh
#! /bin/sh
# Automatically added by dh_python3
# End automatically added section
set -e
if [ "$1" = rtupdate ]; then
if command -v py3compile >/dev/null 2>&1; then
py3compile -p NAME
py3compile -p NAME /usr/share/timeweave
if command -v pypy3compile >/dev/null 2>&1; then
pypy3compile -p NAME || true
pypy3compile -p NAME /usr/share/timeweave || true
if command -v py3clean >/dev/null 2>&1; then
py3clean -p NAME
py3clean -p NAME /usr/share/timeweave
else
dpkg -L NAME | sed -En -e '/^(.*)\/(.+)\.py$/s,,rm "\1/__pycache__/\2".*,e'
find /usr/lib/python3/dist-packages/ -type d -name __pycache__ -empty -print0 | xargs --null --no-run-if-empty rmdir
fi
""".split("\n")


def fields_of(text: str) -> Dict[str, str]:
    """The fields of a control file; raises Bad where a line belongs to none, or one stands twice."""
    found = re.findall(r"^([A-Za-z0-9-]+): (.*(?:\n .*)*)\n?", text, re.M)
    if "".join(f"{name}: {value}\n" for name, value in found) != text or len(dict(found)) != len(found):
        raise Bad("a control file can't be read")
    return dict(found)


def stanzas(text: str) -> List[Dict[str, str]]:
    """The packages of debian/control, each as the fields that its control file has to have."""
    source, *packages = [fields_of(f"{part}\n") for part in text.strip().split("\n\n")]
    return [{**{name: source[name] for name in ("Section", "Priority", "Maintainer")}, **package} for package in packages]


def is_filled(text: str, wanted: str, label: str) -> bool:
    """Whether the text of a field is that of debian/control, with what stands for the names in it."""
    if "${" not in wanted:
        return text == wanted
    parts, found = wanted.split(", "), [it for it in text.split(", ") if it]
    plain = [re.sub(r"\$\{\w+:Version\}", label, it) for it in parts if not it.endswith("Depends}")]
    allowed = [*map(re.escape, plain), *(NEEDED[it] for it in parts if it in NEEDED)]
    return {*plain} <= {*found} and all(any(re.fullmatch(it, one) for it in allowed) for one in found)


def checksums(text: str) -> Set[Tuple[str, str, str]]:
    """The digests, sizes and names of the files that a description of Debian's lists."""
    told = re.search(r"^Checksums-Sha256:[ ]*\n((?: .*\n)+)", text, re.M)
    return {(one, size, name) for one, size, name in (line.split() for line in (told[1] if told else "").splitlines())}


# ---- the judgement


class Release:
    """A release's folder, and what was said of it."""

    def __init__(self, folder: Path, options: argparse.Namespace, room: Path) -> None:
        self.folder, self.options, self.room = folder, options, room
        self.said: List[str] = []
        paths = [path for path in sorted(folder.iterdir()) if path.is_file() and not path.is_symlink()]
        self.read: Files = {path.name: path.read_bytes() for path in paths}
        self.sources: Files = {}

    def good(self, text: str) -> None:
        """Says that something is as it has to be."""
        self.said.append(f"good: {text}")

    def left(self, text: str) -> None:
        """Says that something wasn't checked."""
        self.said.append(f"not checked: {text}")

    def file(self, name: str) -> bytes:
        """A file of the release; raises Bad where it isn't there."""
        if name not in self.read:
            raise Bad(f"{name} isn't there")
        return self.read[name]

    def one(self, pattern: str) -> bytes:
        """The file of such a name; raises Bad where there isn't one alone."""
        names = [name for name in self.read if fnmatch(name, pattern)]
        if len(names) != 1:
            raise Bad(f"there are {len(names)} files {pattern}")
        return self.read[names[0]]

    def version(self) -> str:
        """The version, by the source archive."""
        return self.source("VERSION").decode().strip()

    def label(self) -> str:
        """The version that names packages and archives."""
        return self.version() + TRIAL * self.is_trial()

    def is_trial(self) -> bool:
        """Whether it calls itself a trial, in whatever place."""
        marks = [text.decode("utf-8", "replace").startswith(OF_TRIAL) for name, text in self.read.items() if name in ("BUILD", "PROOFS")]
        return any(marks) or any(TRIAL in name for name in self.read)

    def source(self, path: str) -> bytes:
        """A file of the source archive; raises Bad where it isn't there."""
        if path not in self.sources:
            raise Bad(f"the source archive has no {path}")
        return self.sources[path]

    # ---- each part

    def trial(self) -> None:
        """A trial says in each place that it is one, and is told first."""
        if not self.is_trial():
            return
        self.said.append("A TRIAL, NOT A RELEASE: take it for nothing else.")
        self.said += [f"lacks: {text}." for text in self.told_lacks()]
        silent = [name for name in ("BUILD", "PROOFS") if not self.file(name).decode().startswith(f"{OF_TRIAL}\n")]
        silent += [name for name in self.read if name.endswith((".deb", ".gz", ".xz", ".dsc", ".buildinfo")) and TRIAL not in name]
        if silent:
            raise Bad(f"it calls itself a trial, and not in {', '.join(silent)}")

    def told_lacks(self) -> List[str]:
        """What BUILD tells that it lacks."""
        lines = self.file("BUILD").decode().splitlines()
        return [line.partition(" ")[2] for line in lines if line.startswith("lacks ")]

    def sums(self) -> None:
        """SHA256SUMS has all files, with their digests."""
        told = {line[66:]: line[:64] for line in self.file("SHA256SUMS").decode().splitlines()}
        found = {name: digest(data) for name, data in self.read.items() if name not in BESIDE}
        there = {path.name for path in self.folder.iterdir()} - {*BESIDE}
        parts = {
            "it doesn't name": there - {*told},
            "it names what isn't there, or is no file": {*told} - {*found},
            "it has another digest of": {name for name in {*told} & {*found} if told[name] != found[name]},
        }
        wrong = [f"{how} {', '.join(sorted(names))}" for how, names in parts.items() if names]
        if wrong:
            raise Bad(f"SHA256SUMS isn't of these files: {'; '.join(wrong)}")
        self.good(f"the {len(found)} files have the digests that SHA256SUMS tells, and no file is left out.")

    def signature(self) -> None:
        """SHA256SUMS.sig is of the digests, and of a signer where some are named."""
        if "SHA256SUMS.sig" not in self.read:
            if self.options.signers is not None:
                raise Bad("the release isn't signed")
            return self.left("the release isn't signed. Whose it is shows nothing here.")
        if shutil.which("ssh-keygen") is None:
            if self.options.signers is not None:
                raise Bad("there is no ssh-keygen here (Debian: openssh-client), so the signature, which --signers asks for, can't be checked")
            return self.left("the signature, since there is no ssh-keygen.")
        is_named = self.options.signers is not None
        how = ["verify", "-f", self.options.signers, "-I", "timeweave"] if is_named else ["check-novalidate"]
        words = ["ssh-keygen", "-Y", *how, "-n", "timeweave", "-s", str(self.folder / "SHA256SUMS.sig")]
        done = subprocess.run(words, input=self.file("SHA256SUMS"), capture_output=True, check=False)
        if done.returncode:
            why = " ".join((done.stdout + done.stderr).decode("utf-8", "replace").split())
            raise Bad("SHA256SUMS.sig isn't a signature of SHA256SUMS" + " by one of the signers" * is_named + f": {why[:200]}")
        if is_named:
            return self.good("SHA256SUMS is signed by one of the signers that you named.")
        return self.left("SHA256SUMS is signed by some key; whose it is was not checked: name the signers by --signers.")

    def source_archive(self) -> None:
        """The source archive is of the commit that BUILD names."""
        packed = unpacked(gunzipped(self.one("timeweave-*-source.tar.gz")), self.front())
        self.sources = packed.files
        lay_out(self.sources, self.room)
        build, kit = named(self.file("BUILD").decode()), named(self.source("KIT").decode())
        if packed.commit != build.get("commit"):
            raise Bad(f"the source archive is of the commit {packed.commit}, and BUILD of {build.get('commit')}")
        if build.get("version") != self.label() or (build.get("kit"), build.get("logic")) != (kit["kit"], kit["logic"]):
            raise Bad("BUILD tells another version, kit or logic than the sources")
        of_kit = f"version {self.label()}, {kit['kit']}, logic {kit['logic']}"
        self.good(f"the source archive says that it is of the commit {packed.commit}, as BUILD does, with {of_kit}.")
        self.left("that the archive is that commit's: `git archive` of a repository that you have gives the same bytes.")

    def front(self) -> str:
        """The folder in which the files of the source archive lie."""
        name = next(name for name in self.read if fnmatch(name, "timeweave-*-source.tar.gz"))
        return name[: -len("-source.tar.gz")] + "/"

    def proofs(self) -> None:
        """PROOFS is what the gate's log and the sources give, and nothing of it failed."""
        log = self.file("gate.log")
        if self.file("PROOFS").decode() != proofs_text(log, self.sources, self.is_trial()):
            raise Bad("PROOFS isn't what gate.log and the sources give")
        bodies, told = untried(self.sources), self.told_lacks()
        found = bodies + lacking(log, self.sources)
        wrong = [text for text in found if text not in told or not self.is_trial()]
        wrong += [f"BUILD tells that it lacks what it doesn't: {text}" for text in told if text not in found]
        if wrong:
            raise Bad("; ".join(wrong[:5]))
        gate = Gate(log.decode("utf-8", "replace"))
        functions = [int(closing[2]) for closing in map(CLOSING.fullmatch, gate.closing.values()) if closing]
        counts = f"{len(functions)} crates and {sum(functions)} functions proved, {sum(map(len, gate.edits.values()))} planted edits refused"
        self.good(f"PROOFS is what the gate's log and the sources give: {counts}, the acceptance run {gate.ended or 'not told'}.")
        if not bodies:
            self.good(f"all wrong bodies were tried on these very crates, as {TRIED} of the sources tells.")
        self.left("that the log is true: it is a text. Only who runs the prover on the sources, with the kit, sees that they are proved.")

    def parts(self) -> Dict[str, str]:
        """The digests of the built files, by their names, as BUILD tells them."""
        return {line.split()[2]: line.split()[1] for line in self.file("BUILD").decode().splitlines() if line.startswith("part ")}

    def compare(self, where: str, packed: Packed, wanted: Dict[str, Optional[str]]) -> Iterator[str]:
        """Holds an archive's files against the sources and the built files; answers the paths that came from them.

        Raises Bad with the first other one."""
        parts = self.parts()
        for path in packed.links:
            if path not in wanted or wanted[path] is not None:
                raise Bad(f"{where}: the link {path} isn't of the Makefile")
        for path, data in packed.files.items():
            is_packed = path.endswith(".gz") and path[:-3] in wanted
            plain = path[:-3] if is_packed else path
            source = wanted.get(plain)
            if any(fnmatch(path, pattern) for pattern in MADE):
                continue
            if path == RUN_AT_UPGRADES:
                self.script(where, data)
                continue
            if source is None:
                raise Bad(f"{where}: {path} isn't of the Makefile")
            of_sources = of_version(self.source(source), self.label()) if source == CHANGELOG else b"" if source in parts else self.source(source)
            if digest(gunzipped(data) if is_packed else data) != (parts[source] if source in parts else digest(of_sources)):
                raise Bad(f"{where}: {path} isn't {source} of the sources, or of BUILD")
            yield plain

    def script(self, where: str, data: bytes) -> None:
        """Raises Bad where a script does more than compile Python's files, or take away what was compiled."""
        lines = [" ".join(re.sub(r" (python3-timeweave|timeweave:amd64|timeweave)(?= |$)", " NAME", line).split()) for line in data.decode().splitlines()]
        wrong = [line for line in lines if line not in SCRIPTED]
        if wrong:
            raise Bad(f"{where} has a script that does more than compile what is of Python: {wrong[0][:80]}")

    def control(self, name: str, told: Files) -> str:
        """Holds what a package says of itself against debian/control, and answers its name; raises Bad where it says something else."""
        if not {*told} <= {"control", "md5sums", "shlibs", "symbols", "triggers", "conffiles", "postinst", "prerm"}:
            raise Bad(f"{name} has scripts: {', '.join(told)}")
        for script in {"postinst", "prerm"} & {*told}:
            self.script(name, told[script])
        if [line for line in told.get("triggers", b"").decode().splitlines() if not line.startswith("#")] not in ([], LDCONFIG):
            raise Bad(f"{name} asks for more than ldconfig when it is installed")
        found = fields_of(told["control"].decode())
        wanted = next((it for it in stanzas(self.source("debian/control").decode()) if it["Package"] == found.get("Package")), None)
        if wanted is None or not name.startswith(f"{wanted['Package']}_{self.label()}_"):
            raise Bad(f"{name} isn't of debian/control, or of another version")
        wanted = {**wanted, "Version": self.label()}
        for field in [field for field in {**wanted, **found} if field not in FREE]:
            if not is_filled(found.get(field, ""), wanted.get(field, ""), self.label()):
                raise Bad(f"{name} says `{field}: {found.get(field, '')}`, and debian/control doesn't")
        return wanted["Package"]

    def packages(self) -> None:
        """The packages and the tar file have the files of the sources, and the built ones that BUILD names."""
        version, label, seen = self.version(), self.label(), set()
        wanted = table(self.sources, DEBIAN, version)
        names = [name for name in self.read if name.endswith(".deb")]
        for name in names:
            control, data = parts_of_deb(self.read[name])
            seen |= {*self.compare(name, data, {**wanted, **of_debian(self.control(name, control.files))}), *data.links}
            settings = {path for path in data.files if path.startswith("etc/")}
            if {*control.files.get("conffiles", b"").decode().splitlines()} != {f"/{path}" for path in settings}:
                raise Bad(f"{name}: conffiles aren't its settings")
            sums = {f"{hashlib.md5(text).hexdigest()}  {path}" for path, text in data.files.items() if path not in settings}
            if {*control.files["md5sums"].decode().splitlines()} != sums:
                raise Bad(f"{name}: md5sums aren't those of its files")
        elsewhere = table(self.sources, ELSEWHERE, version)
        packed = unpacked(gunzipped(self.one("timeweave-*-x86_64-linux.tar.gz")), f"timeweave-{label}-x86_64-linux/")
        other = {*self.compare("the tar file", packed, elsewhere), *packed.links}
        made = {path for path in (*wanted, *elsewhere) if any(fnmatch(path, pattern) for pattern in MADE)}
        missing = sorted(({*wanted} - seen - made) | ({*elsewhere} - other - made))
        if missing or len(names) != len(stanzas(self.source("debian/control").decode())):
            raise Bad(f"packages lack files: {', '.join(missing[:3])}")
        if digest(self.file("timeweave.html")) != self.parts().get("web/timeweave.html"):
            raise Bad("timeweave.html isn't the page that BUILD names")
        self.described(names)
        told = f"{len(names)} packages and the tar file have the {len({*wanted} & seen)} files that `make install` copies"
        self.good(f"{told}, each as the sources or BUILD have it, and no scripts but those that compile what is of Python, and take that away.")
        self.left("tables and the like, which are made while it is packed.")
        self.left("that program, library and page are built of the sources: `make twice BESIDE=1` with the kit shows that.")

    def described(self, names: List[str]) -> None:
        """Holds the source package against the sources, and what Debian's tools wrote of source and packages against the files; raises Bad where they differ."""
        tar = f"timeweave_{self.label()}.tar.xz"
        packed, wanted = unpacked(unpacked_xz(self.file(tar)), self.front()), dict(self.sources)
        wanted[CHANGELOG] = of_version(wanted[CHANGELOG], self.label())
        wanted.pop(".gitignore", None)
        if packed.files != wanted or packed.links:
            other = sorted(path for path in {*wanted, *packed.files} if wanted.get(path) != packed.files.get(path))
            raise Bad(f"the source package isn't of the sources: {', '.join(other[:3])}")
        for description, files in ((f"timeweave_{self.label()}.dsc", [tar]), (f"timeweave_{self.label()}_amd64.buildinfo", names)):
            if checksums(self.file(description).decode()) != {(digest(self.read[name]), str(len(self.read[name])), name) for name in files}:
                raise Bad(f"{description} tells other digests than those of {', '.join(files)}")

    def licences(self) -> None:
        """LICENCES has the licence and NOTICE of the sources, and the parts stand in the list of parts."""
        text = self.file("LICENCES").decode()
        for name in ("LICENSE", "NOTICE"):
            if self.source(name).decode() not in text:
                raise Bad(f"LICENCES hasn't the whole {name} of the sources")
        for name, _ in notice_parts(self.source("NOTICE").decode()):
            if f"\n==== {name}:" not in text:
                raise Bad(f"LICENCES has nothing of {name}")
        told, build = json.loads(self.file("SBOM.spdx.json")), named(self.file("BUILD").decode())
        wanted = sbom_text(self.source("NOTICE").decode(), self.version(), build["commit"], told["creationInfo"]["created"])
        if told != json.loads(wanted):
            raise Bad("SBOM.spdx.json isn't the list of NOTICE's parts")
        count = len(told["packages"])
        self.good(f"LICENCES has the licence, NOTICE, and a part for each crate that NOTICE names; SBOM.spdx.json lists {count} parts.")
        self.left("that the licence texts of the kit's parts are whole: the sources don't have them.")

    def vectors(self) -> None:
        """The vectors are those of the sources, and the judges at hand answer them."""
        packed = unpacked(gunzipped(self.one("timeweave-*-vectors.tar.gz")), self.front()[:-1] + "-vectors/")
        wanted = {path[len("vectors/") :]: data for path, data in self.sources.items() if path.startswith("vectors/")}
        if packed.files != wanted:
            raise Bad("the vectors aren't those of the sources")
        done = self.run_judge([sys.executable, "-I", "-c", BY_REFERENCE, str(self.room)])
        self.good(f"the second implementation, as the source archive has it, answers {done.strip()} vectors as they say.")
        names = [name for name in sorted(packed.files) if name.endswith(".json") and name != "schema.json"]
        files = [str(self.room / "vectors" / name) for name in names]
        if has_perl():
            told = self.run_judge(["perl", str(self.room / TRY_IN_PERL), *files]).strip()
            self.good(f"of the vectors by the verifier in Perl: {told}.")
        else:
            self.left("the vectors by the verifier in Perl, since there is no perl, or not all of its own modules (Debian: perl).")
        self.left("the vectors by the release's program: python3 tests/acceptance/run.py PROGRAM -k vectors, in the unpacked sources.")

    def run_judge(self, words: List[str]) -> str:
        """What a judge of the vectors says; raises Bad where one isn't answered."""
        done = subprocess.run(words, cwd=self.room, capture_output=True, text=True, check=False)
        if done.returncode:
            raise Bad(f"vectors are answered otherwise: {(done.stdout + done.stderr).strip()[-300:]}")
        return done.stdout

    def record(self) -> None:
        """The log's proof says that SHA256SUMS was recorded, by a log of which the reader holds a line."""
        if "SHA256SUMS.proof" not in self.read:
            if self.options.line is not None:
                raise Bad("no proof of a log is there that the release was recorded, which --line asks for")
            return self.left("no proof of a log is there that the release was recorded.")
        reference = OWN / "reference/timeweave_reference"
        if not (reference / "__main__.py").is_file():
            if self.options.line is not None:
                raise Bad("reference/timeweave_reference isn't beside this judge, by which it judges the log's proof, as --line asks")
            return self.left("the log's proof, since reference/timeweave_reference isn't beside this judge.")
        line = self.options.line or self.folder / "SHA256SUMS.line"
        lines = line.read_text("ascii")
        words = [sys.executable, "-I", str(reference), "judge", str(self.folder / "SHA256SUMS.proof"), str(line), "strict"]
        done = subprocess.run(words, capture_output=True, text=True, check=False)
        if done.returncode:
            raise Bad(f"the log's proof isn't accepted under {line}: {done.stdout.strip()}")
        found = one_event(done.stdout, lines)
        if found is None:
            raise Bad(f"the log's proof isn't that of one event of the log of {line}: {' '.join(done.stdout.split())}")
        if not found.event.startswith(digest(self.file("SHA256SUMS")).encode() + b" "):
            raise Bad("the log's proof is of another SHA256SUMS")
        whose = "the line that you named" if self.options.line else "the line that lies beside it"
        told = f"the log {found.service} recorded this SHA256SUMS in its step {found.step}, under {whose}"
        self.good(f"{told}, by the second implementation beside this judge, {reference}.")
        if not self.options.line:
            self.left("whose that line is: get it another way from the owner, and name it by --line.")
        return None

    def judge(self, to_first: bool = False) -> bool:
        """Says of each part what is so, or where that is said of each up to the first bad one; whether nothing was bad."""
        checks: List[Callable[[], None]] = [self.trial, self.sums, self.signature, self.source_archive, self.proofs, self.packages]
        checks += [self.licences, self.vectors, self.record]
        for check in checks:
            try:
                check()
            except (Bad, *READING) as bad:
                told = str(bad) if isinstance(bad, Bad) else f"it can't be read: {type(bad).__name__} {bad}"
                self.said.append(f"BAD: {check.__name__.replace('_', ' ')}: {told}.")
                if to_first:
                    return False
        return not any(line.startswith("BAD") for line in self.said)


def has_perl() -> bool:
    """Whether Perl is here, with the modules of its own that the verifier and the trying of vectors use; Debian's perl-base lacks some."""
    words = ["perl", "-MDigest::SHA", "-MList::Util", "-MFindBin", "-MJSON::PP", "-e", "1"]
    return shutil.which("perl") is not None and subprocess.run(words, capture_output=True, check=False).returncode == 0


TRY_IN_PERL = "examples/verifier_in_perl/try_vectors.pl"
BY_REFERENCE = """
import json, sys
from pathlib import Path
top = Path(sys.argv[1])
sys.path.insert(0, str(top / "reference"))
import timeweave_reference
from timeweave_reference import commands
count = 0
for path in sorted((top / "vectors").glob("*.json")):
    for vector in json.loads(path.read_text()).get("vectors", ()) if path.stem != "schema" else ():
        files = {name: bytes.fromhex(digits) for name, digits in vector["files"].items()}
        words = vector["words"]
        wanted = vector["text"].encode() if "text" in vector else bytes.fromhex(vector["bytes"])
        has_no_command = words[0] in ("contradict", "receiver")
        found = getattr(timeweave_reference, words[0])(*(files[word] for word in words[1:])) if has_no_command else commands.answer(words, files)
        if found != (vector["status"], wanted):
            sys.exit(f"{path.stem}: {vector['name']}")
        count += 1
print(count)
"""


def main() -> int:
    """Judges the release that the words name; the status to end with."""
    words = argparse.ArgumentParser(description=__doc__, formatter_class=argparse.RawDescriptionHelpFormatter)
    words.add_argument("folder", type=Path, metavar="FOLDER", help="the release's files")
    words.add_argument("--signers", metavar="FILE", help="the keys of those who may sign, got another way")
    words.add_argument("--line", type=Path, metavar="FILE", help="a line of the log, got another way")
    options = words.parse_args()
    with tempfile.TemporaryDirectory(prefix="timeweave-judged-") as room:
        release = Release(options.folder, options, Path(room))
        is_good, is_trial = release.judge(), release.is_trial()
    last = "Nothing was bad." if is_good else "Something was bad."
    print(*release.said, f"{last} This is a trial, not a release." if is_trial else last, sep="\n")
    return (3 if is_trial else 0) if is_good else 1


if __name__ == "__main__":
    sys.exit(main())
