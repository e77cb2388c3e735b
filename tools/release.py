#!/usr/bin/env python3
"""Writes dist/: packages for Debian, a tar file with the same, the page, what they were built of, and the digests of all. `make package` and `make release` call it.

    python3 tools/release.py --packages [--key FILE]
    python3 tools/release.py [--key FILE] [--gate FILE] [--record DIR] [--trial]

    --packages      writes these alone
    --key FILE      signs the digests by a key of ssh
    --gate FILE     the log of a gate that passed on these sources, log/test.log where it isn't said; each crate has to be proved anew in it
    --record DIR    records the digests in a log that `weft log` keeps in DIR: their file lies in DIR/releases, the service in DIR/log
    --trial         makes a trial, though the gate's log or the wrong bodies lack something: its version ends with `~trial`, BUILD and PROOFS
                    begin with what it is, BUILD tells what it lacks, and the judge says so first; it is for trying how a release is judged

Without --packages it adds what a release is judged by: sources, vectors, licences, a list of parts, and what the gate said. What is packed has to be built of the
sources that lie here, these have to be those of a commit, and the wrong bodies of each crate have to have been tried, as its line of docs/wrong-bodies-tried.txt
tells: else it is told what is missing, and the status is 1. Debian's own tools pack it, by debian/ (it needs debhelper and dh-python). Nothing of the time, the
folder or the user gets into the files: the same commit, built by the same tools, gives the same bytes. tools/judge_release.py judges a release, and
docs/releases.md tells what is in one.
"""

import argparse
import gzip
import hashlib
import io
import os
import re
import shutil
import subprocess
import sys
import tarfile
import tempfile
import time
from pathlib import Path

import body_trials
import build_library
import build_page
import built
import judge_release
from body_trials import TRIED, git, untried
from crates import TOP, list_files
from kit import CPU, KIT, kit_line, run

VERSION = (TOP / "VERSION").read_text().strip()
DIST, LOG = TOP / "dist", TOP / "log/test.log"

# What is packed of built files, each with the digest of what it is built of; and how it is built.
PAGE = "web/timeweave.html"
PARTS = ("bin/timeweave", "lib/libtimeweave.a", "lib/libtimeweave.so", "web/timeweave.wasm", PAGE)
BUILT_BY = {"bin": "make build", "lib": "make lib", "web": "make page"}

# The tools of the machine by which files get their bytes, besides the kit's.
TOOLS = ("cc", "ld", "ar", "dpkg-deb", "dh")

# Which folders of the kit have the licences of what NOTICE tells of without a crate's name.
OTHERS = ("memchr", "unicode")


# ---- what is packed


def stale():
    """The built files that aren't there, or weren't built of the sources that lie here, each with the command that builds it."""
    sums = {"bin": built.sum_of(["timeweave"]), "lib": build_library.library_sum(), "web": build_page.module_sum()}
    found = [part for part in PARTS if part != PAGE and not built.is_built(TOP / part, sums[part.split("/")[0]])]
    page, module = TOP / PAGE, TOP / "web/timeweave.wasm"
    if not (page.exists() and module.exists() and build_page.page(module.read_bytes()) == page.read_text()):
        found.append(PAGE)
    return [(part, BUILT_BY[part.split("/")[0]]) for part in found]


def digest(path):
    """The SHA-256 digest of a file."""
    return hashlib.sha256(Path(path).read_bytes()).hexdigest()


def epoch():
    """The time that files of a package are given, in seconds: what SOURCE_DATE_EPOCH says, else that of the commit."""
    return int(os.environ.get("SOURCE_DATE_EPOCH") or git("log", "-1", "--format=%ct"))


def compressed(data):
    """Bytes, compressed without a time."""
    return gzip.compress(data, 9, mtime=0)


# ---- packages


def lay_out(tree, version):
    """Copies the files that git keeps into a folder, with the commit's time, modes that hang on nobody, and this version at the head of Debian's changelog."""
    for name in list_files("."):
        (tree / name).parent.mkdir(parents=True, exist_ok=True)
        shutil.copy(TOP / name, tree / name)
    changelog, when = tree / judge_release.CHANGELOG, epoch()
    changelog.write_bytes(judge_release.of_version(changelog.read_bytes(), version))
    for path in [tree, *tree.rglob("*")]:
        path.chmod(0o755 if path.is_dir() or path.stat().st_mode & 0o100 else 0o644)
        os.utime(path, (when, when))


def run_in(tree, *words):
    """Runs a tool of packers in a folder, and lets it know nothing of the user; answers what it printed. Where it fails, what it said last is told, and all ends."""
    known = {"HOME": str(tree.parent), "LC_ALL": "C.UTF-8", "TZ": "UTC", "SOURCE_DATE_EPOCH": str(epoch()), "PYTHONDONTWRITEBYTECODE": "1"}
    known["PATH"] = f"/usr/sbin:/usr/bin:/sbin:/bin:{os.environ['PATH']}"
    done = subprocess.run(words, cwd=tree, env=known, umask=0o022, stdin=subprocess.DEVNULL, capture_output=True, check=False)
    if done.returncode:
        told = (done.stdout + done.stderr).decode(errors="replace")
        sys.exit(f"release: {' '.join(map(str, words))} ended with {done.returncode}:\n{told[-3000:]}")
    return done.stdout


def pack(into, files=None, version=VERSION):
    """Packs the built files with the sources that lie here: the packages for Debian, what they were built with, and the tar file with the same; `files` are built
    files that lie elsewhere."""
    with tempfile.TemporaryDirectory() as folder:
        tree = Path(folder) / f"timeweave-{version}"
        lay_out(tree, version)
        for part in PARTS:
            (tree / part).parent.mkdir(exist_ok=True)
            shutil.copy((files or {}).get(part, TOP / part), tree / part)
        run_in(tree, "make", "-s", "tables")
        run_in(tree, "dpkg-buildpackage", "-us", "-uc", "-b", "-j1")
        for path in sorted(Path(folder).glob("*.deb")):
            shutil.copyfile(path, into / path.name)
        told = next(Path(folder).glob("*.buildinfo"))
        (into / told.name).write_text(re.sub(r"^Build-Date: .*\n", "", told.read_text(), flags=re.M))
        (into / f"timeweave-{version}-x86_64-linux.tar.gz").write_bytes(compressed(installed(tree, f"timeweave-{version}-x86_64-linux")))


def installed(tree, name):
    """A tar archive of what `make install` copies, to be unpacked below /usr/local or a folder of one's own; its files lie in a folder of this name."""
    room = tree.parent / "installed"
    run_in(tree, "make", "-s", "install", f"DESTDIR={room}", "PREFIX=/usr/local")
    (room / "usr/local").rename(room / name)
    return run_in(tree, "tar", "--format=ustar", "--sort=name", "--owner=root:0", "--group=root:0", f"--mtime=@{epoch()}", "-C", room, "-c", name)


def pack_sources(into, version=VERSION):
    """Makes the source package for Debian."""
    with tempfile.TemporaryDirectory() as folder:
        tree = Path(folder) / f"timeweave-{version}"
        lay_out(tree, version)
        run_in(tree, "dpkg-source", "--build", ".")
        for path in (*Path(folder).glob("*.dsc"), *Path(folder).glob("*.tar.xz")):
            shutil.copyfile(path, into / path.name)


# ---- what it was built of


def tools():
    """The digests of the tools by which the files got their bytes."""
    kits = [KIT / name for name in ("bin/rattle", "bin/rattle-link", "toolchain/bin/clang", "toolchain/bin/ld.lld")]
    return {f"kit/{path.relative_to(KIT)}": path for path in kits} | {name: Path(os.path.realpath(shutil.which(name))) for name in TOOLS if shutil.which(name)}


def build_text(files, version):
    """What the files of dist/ were built of, and the digests of the built files that are packed."""
    logic = re.search(r"logic (\w+)", kit_line())
    lines = [f"version {version}", f"commit {git('rev-parse', 'HEAD')}", f"kit {kit_line().split()[0]}", f"logic {logic[1] if logic else '-'}", f"processor {CPU}"]
    lines += [f"part {digest(files.get(part, TOP / part))} {part}" for part in PARTS]
    lines += [f"tool {digest(path)} {name}" for name, path in sorted(tools().items())]
    return "".join(f"{line}\n" for line in lines)


def write(into, files=None, key=None, version=VERSION):
    """Writes packages into a folder, with what they were built of and the digests; `files` are built files that lie elsewhere, `version` is what they are named by."""
    pack(into, files, version)
    pack_sources(into, version)
    shutil.copyfile((files or {}).get(PAGE, TOP / PAGE), into / "timeweave.html")
    (into / "BUILD").write_text(build_text(files or {}, version))
    write_sums(into)
    if key:
        sign(into, key)


def lacking():
    """What is missing before all can be packed, each with what is to be done."""
    return not_ready() + [why for why in [untried(TRIED.read_text(), body_trials.digests(body_trials.sources_here()))] if why]


def not_ready():
    """The built files that can't be packed, and whether the sources are those of a commit."""
    found = [f"{part} isn't there, or was built of other sources; `{command}` builds it" for part, command in stale()]
    return found + ["files differ from the commit: commit first, or take them away"] * bool(git("status", "--porcelain"))


# ---- a release


def source_archive(label=VERSION):
    """The sources of the commit, compressed; their folder is named by the version."""
    return git_bytes("archive", "--format=tar", f"--prefix=timeweave-{label}/", "HEAD")


def source_files():
    """The files of the commit, by their paths."""
    return judge_release.unpacked(source_archive(), f"timeweave-{VERSION}/").files


def git_bytes(*words):
    """What git writes. The settings of whoever runs it have no part in it."""
    return subprocess.run(["git", "-c", "tar.umask=0022", *words], cwd=TOP, check=True, capture_output=True).stdout


def vectors(files, when, label):
    """The vectors as a tar archive."""
    packed, front = io.BytesIO(), f"timeweave-{label}-vectors/"
    with tarfile.open(fileobj=packed, mode="w", format=tarfile.USTAR_FORMAT) as tar:
        for path in sorted(path for path in files if path.startswith("vectors/")):
            info = tarfile.TarInfo(front + path.split("/", 1)[1])
            info.size, info.mtime, info.mode, info.uname, info.gname = len(files[path]), when, 0o644, "root", "root"
            tar.addfile(info, io.BytesIO(files[path]))
    return packed.getvalue()


def licences(files):
    """The licence and NOTICE of Timeweave, and what the kit has as the licence of each part that NOTICE names."""
    notice = files["NOTICE"].decode()
    text = f"==== Timeweave: LICENSE\n\n{files['LICENSE'].decode()}\n==== Timeweave: NOTICE\n\n{notice}\n"
    for name in [*(name for name, _ in judge_release.notice_parts(notice)), *OTHERS]:
        found = sorted((KIT / "rattle" / name).glob("LICENSE*"))
        for path in found:
            text += f"\n==== {name}: {path.name}\n\n{path.read_text()}\n"
        text += f"\n==== {name}: the kit has no licence of it\n" * (not found)
    return text


def versions():
    """The versions of the tools of the machine, one a line, as BUILD tells them."""
    lines = []
    for name in (*TOOLS, "python3", "git"):
        if shutil.which(name):
            done = subprocess.run([name, "--version"], capture_output=True, text=True, check=False)
            lines.append(f"version-of {name} {(done.stdout + done.stderr).strip().splitlines()[0]}\n")
    return "".join(lines)


def label_of(is_trial):
    """The version that names packages and archives."""
    return VERSION + judge_release.TRIAL * is_trial


def head_of_build(log, files, is_trial):
    """The lines of BUILD that come first: of a trial what it is, and what it lacks."""
    told = [f"lacks {text}" for text in judge_release.lacks(log, files)]
    return "".join(f"{line}\n" for line in [judge_release.OF_TRIAL, *told]) if is_trial else ""


def add_parts(into, log, is_trial=False):
    """Adds to the packages in a folder what a release has besides, and writes the digests anew."""
    files, when, label = source_files(), epoch(), label_of(is_trial)
    created = time.strftime("%Y-%m-%dT%H:%M:%SZ", time.gmtime(when))
    (into / f"timeweave-{label}-source.tar.gz").write_bytes(compressed(source_archive(label)))
    (into / f"timeweave-{label}-vectors.tar.gz").write_bytes(compressed(vectors(files, when, label)))
    (into / "LICENCES").write_text(licences(files))
    (into / "SBOM.spdx.json").write_text(judge_release.sbom_text(files["NOTICE"].decode(), VERSION, git("rev-parse", "HEAD"), created))
    (into / "gate.log").write_bytes(log)
    (into / "PROOFS").write_text(judge_release.proofs_text(log, files, is_trial))
    build = into / "BUILD"
    build.write_text(head_of_build(log, files, is_trial) + build.read_text() + versions())
    write_sums(into)


def write_sums(into):
    """Writes SHA256SUMS of all other files."""
    names = sorted(path.name for path in into.iterdir() if not path.name.startswith("SHA256SUMS"))
    (into / "SHA256SUMS").write_text("".join(f"{digest(into / name)}  {name}\n" for name in names))


def sign(into, key):
    """Signs the digests."""
    (into / "SHA256SUMS.sig").unlink(missing_ok=True)
    subprocess.run(["ssh-keygen", "-q", "-Y", "sign", "-f", key, "-n", "timeweave", into / "SHA256SUMS"], check=True)


def record(into, folder, program, *more):
    """Records the digests in the log of a folder, and puts their proof and the log's line beside them."""
    archive = next(into.glob("*-source.tar.gz")).name
    weft, name = [sys.executable, TOP / "weft/bin/weft"], archive.replace("source.tar.gz", f"{git('rev-parse', 'HEAD')[:12]}.SHA256SUMS")
    environment = {**os.environ, "TIMEWEAVE_PROGRAM": os.path.abspath(program), "WEFT_KEPT": str(folder / "kept")}
    (folder / "releases").mkdir(parents=True, exist_ok=True)
    shutil.copyfile(into / "SHA256SUMS", folder / "releases" / name)
    is_new = not (folder / "log").exists()
    logging = ["log", *more, "releases", "log", *["releases"] * is_new]
    for words in (logging, ["prove", "--out", (into / "SHA256SUMS.proof").resolve(), "log", name]):
        done = subprocess.run([*weft, *words], cwd=folder, env=environment, capture_output=True, text=True, check=False)
        if done.returncode not in (0, 10):
            sys.exit(f"release: weft {words[0]} ended with {done.returncode}: {done.stdout}{done.stderr}")
    shutil.copyfile(folder / "log.anchor", into / "SHA256SUMS.line")


def missing(log, is_trial):
    """What isn't there for a release, or for a trial: that takes a log and wrong bodies that lack something."""
    if not log.exists():
        return [*not_ready(), f"{log} isn't there; `make test` writes it"]
    return not_ready() + ([] if is_trial else judge_release.lacks(log.read_bytes(), source_files()))


def read_words():
    """The words that it is called with."""
    words = argparse.ArgumentParser(description=__doc__, formatter_class=argparse.RawDescriptionHelpFormatter)
    words.add_argument("--packages", action="store_true", help="the packages alone")
    words.add_argument("--key", metavar="FILE", help="a key of ssh, by which SHA256SUMS is signed")
    words.add_argument("--gate", metavar="FILE", type=Path, default=LOG, help="the gate's log")
    words.add_argument("--record", metavar="DIR", type=Path, help="where the log of releases is kept")
    words.add_argument("--trial", action="store_true", help="a trial, which lacks something and says so")
    return words.parse_args()


def main():
    """Writes a release; the status to end with."""
    options = read_words()
    wrong = lacking() if options.packages else missing(options.gate, options.trial)
    for why in wrong:
        print(f"release: {why}", file=sys.stderr)
    if wrong:
        return 1
    shutil.rmtree(DIST, ignore_errors=True)
    DIST.mkdir()
    write(DIST, version=label_of(options.trial))
    if not options.packages:
        add_parts(DIST, options.gate.read_bytes(), options.trial)
    if options.key:
        sign(DIST, options.key)
    if options.record:
        record(DIST, options.record.resolve(), TOP / "bin/timeweave")
    print((DIST / "SHA256SUMS").read_text(), end="")
    return 0


if __name__ == "__main__":
    sys.exit(main())
