"""A release is judged by its files alone: a good one is found good, each fault that is planted in one is found, a trial is told first and by
a status of its own, and what the judge didn't check it says."""

import argparse
import io
import os
import re
import shutil
import subprocess
import sys
import tarfile
import tempfile
from pathlib import Path
from unittest import mock

import body_trials
import judge_release
import proved_by

from harness import packing
from harness.places import LONGEST, TOP
from harness.rooms import Skipped, Wrong, case, needs
from timeweave_reference.events_files import events_to_bytes


# ---- a release


def tree():
    """What the source archive of a release has now."""
    import release

    return release.source_files()


def good_log(files):
    """A gate's log that tells that all of these sources passed."""
    lines, logic = [], proved_by.proved_by().logic
    for crate in judge_release.crates_of(files):
        lines += [f"== {crate}", f"fn {crate}::one: proved", f"logic=proved functions=1 sum={logic}00 native=nat", f"rt: {crate} proved"]
    for path in files:
        if path.startswith("crates/") and path.endswith(".edit"):
            _, crate, _, edit = path.split("/")
            lines.append(f"rt: must-fail {crate}/{edit}: refused, as it must be: note: it is not proved")
    run = ["9 passed, 0 failed", "cases: data, part 1 of 2, 0 passed, 0 failed", "1 skipped", "30 passed, 0 failed", ""]
    return "\n".join([*lines, *run]).encode()


def as_tried(archive):
    """The source archive of a commit in which all wrong bodies were tried on its crates."""
    return repacked(archive, lambda path, text: tried_text() if path.endswith(f"/{judge_release.TRIED}") else text)


def tried_text():
    """The file that tells that all wrong bodies were tried on the crates that lie here."""
    wanted = body_trials.digests(body_trials.sources_here())
    return body_trials.text_of({name: body_trials.Trial(digest, "2026-01-01", "0" * 40, 1) for name, digest in wanted.items()}).encode()


def made(room, name, log=None):
    """Writes a release of the last commit, signed and recorded, or where a gate's log is named a trial; answers its folder."""
    packing.can_pack()
    needs("ssh-keygen", "openssh-client")
    if subprocess.run(["git", "status", "--porcelain"], cwd=TOP, check=True, capture_output=True).stdout:
        raise Skipped("files differ from the commit, or this is none")
    import release

    into, kept = room.folder / name, room.folder / f"{name}-kept"
    plain, lay_out = release.source_archive, release.lay_out

    def lay_out_as_tried(tree, version):
        """The sources, in which all wrong bodies were tried."""
        lay_out(tree, version)
        (tree / judge_release.TRIED).write_bytes(tried_text())

    into.mkdir()
    with mock.patch.object(release, "lay_out", lay_out_as_tried):
        release.write(into, packing.stand_ins(room.program), version=release.label_of(log is not None))
    with mock.patch.object(release, "source_archive", lambda *label: as_tried(plain(*label))):
        release.add_parts(into, log or good_log(tree()), is_trial=log is not None)
    subprocess.run(["ssh-keygen", "-q", "-t", "ed25519", "-N", "", "-f", room.folder / f"{name}-key"], check=True)
    (room.folder / "signers").write_text(f"timeweave {(room.folder / f'{name}-key.pub').read_text()}")
    release.sign(into, room.folder / f"{name}-key")
    kept.mkdir()
    release.record(into, kept, room.program, *["--unproved"] * (not packing.is_program(room.program)))
    return into


def judge_folder(folder, signers, to_first=True):
    """What the judge says of a folder."""
    with tempfile.TemporaryDirectory() as place:
        release = judge_release.Release(folder, argparse.Namespace(signers=signers, line=None), Path(place))
        release.judge(to_first)
    return release.said


# ---- faults


def changed(name, old, new):
    """The fault that a file of this name has other bytes where a pattern is found last."""

    def plant(folder):
        path = next(folder.glob(name))
        data = path.read_bytes()
        places = [found.span() for found in re.finditer(old, data, re.M)]
        if not places:
            raise Wrong(f"  {name} has no {old!r}")
        path.write_bytes(data[: places[-1][0]] + new + data[places[-1][1] :])

    return plant


def repacked(data, change, more=()):
    """A tar archive with other bytes in the place of some files, by change(path, bytes), and with more files."""
    made = io.BytesIO()
    with tarfile.open(fileobj=io.BytesIO(data)) as tar:
        members = [(member, tar.extractfile(member).read() if member.isreg() else b"") for member in tar]
    members += [(tarfile.TarInfo(name), text) for name, text in more]
    with tarfile.open(fileobj=made, mode="w", format=tarfile.PAX_FORMAT, pax_headers=tar.pax_headers) as new:
        for member, text in members:
            text = change(member.name, text) if member.isreg() else text
            member.size = len(text)
            new.addfile(member, io.BytesIO(text))
    return made.getvalue()


def in_tar(pattern, path, new=None, more=()):
    """The fault that a file of a compressed archive has other bytes, or that there are more files below its folder."""

    def plant(folder):
        archive = next(folder.glob(pattern))
        tar = judge_release.gunzipped(archive.read_bytes())
        below = [(f"{archive.name.removesuffix('.tar.gz')}/{name}", text) for name, text in more]
        data = repacked(tar, lambda name, text: new(text) if path and name.endswith(path) else text, below)
        archive.write_bytes(judge_release.gzip.compress(data, 1))

    return plant


def commented(text):
    """A file with a comment more."""
    return text + b"#\n"


def in_deb(pattern, part, path, more=(), change=commented):
    """The fault that a package has another file, or one more, in its control or data."""

    def plant(folder):
        package = next(folder.glob(pattern))
        data, place, made = package.read_bytes(), 8, b"!<arch>\n"
        while place + 60 <= len(data):
            head, size = data[place : place + 60], int(data[place + 48 : place + 58])
            body = data[place + 60 : place + 60 + size]
            if head.startswith(part.encode()):
                tar = judge_release.lzma.decompress(body)
                tar = repacked(tar, lambda name, text: change(text) if path and name.endswith(path) else text, more)
                body = judge_release.lzma.compress(tar, preset=0)
            made += head[:48] + str(len(body)).ljust(10).encode() + head[58:] + body + b"\n" * (len(body) % 2)
            place += 60 + size + size % 2
        package.write_bytes(made)

    return plant


def in_source_package(folder):
    """The fault that the source package has another file than the sources."""
    archive = next(folder.glob("timeweave_*.tar.xz"))
    tar = judge_release.lzma.decompress(archive.read_bytes())
    archive.write_bytes(judge_release.lzma.compress(repacked(tar, lambda name, text: commented(text) if name.endswith("/debian/rules") else text), preset=0))


def with_two_data(folder):
    """The fault that a package has the data of another one before its own: dpkg installs those that come first."""
    package, other = (next(folder.glob(pattern)) for pattern in ("timeweave_*.deb", "python3-*.deb"))
    data, place = package.read_bytes(), other.read_bytes().index(b"data.tar.xz")
    at = data.index(b"data.tar.xz")
    package.write_bytes(data[:at] + other.read_bytes()[place:] + data[at:])


def in_control(old, new):
    """The fault that the control file of a package says something else."""
    return in_deb("timeweave_*.deb", "control.tar.xz", "control", change=lambda text: text.replace(old, new, 1))


def in_log(old, new):
    """The fault that the gate's log is another one, to which PROOFS was made."""

    def plant(folder):
        changed("gate.log", old, new)(folder)
        archive = next(folder.glob("*-source.tar.gz"))
        front = f"{archive.name.removesuffix('-source.tar.gz')}/"
        files = judge_release.unpacked(judge_release.gunzipped(archive.read_bytes()), front).files
        is_trial = (folder / "PROOFS").read_text().startswith(judge_release.OF_TRIAL)
        (folder / "PROOFS").write_text(judge_release.proofs_text((folder / "gate.log").read_bytes(), files, is_trial))

    return plant


def of_another_commit(folder):
    """The fault that the source archive says that it is of another commit."""
    archive = next(folder.glob("*-source.tar.gz"))
    data = judge_release.gunzipped(archive.read_bytes())
    commit = judge_release.named((folder / "BUILD").read_text())["commit"].encode()
    archive.write_bytes(judge_release.gzip.compress(data.replace(commit, b"0" * 40, 1), 1))


def without_part(folder):
    """The fault that the list of parts leaves one out."""
    path = folder / "SBOM.spdx.json"
    told = judge_release.json.loads(path.read_text())
    told["packages"] = [part for part in told["packages"] if part["name"] != "sha2"]
    path.write_text(judge_release.json.dumps(told))


def reworded(text):
    """A source with a comment more."""
    return text + b"// more\n"


# Faults of whoever changes a file alone: each with the part of the judgement that finds it.
CARELESS = (
    ("a byte of a package", "sums", changed("timeweave_*.deb", b"debian-binary", b"debian-binarz")),
    ("a file taken away", "sums", lambda folder: (folder / "LICENCES").unlink()),
    ("a file added", "sums", lambda folder: (folder / "more").write_text("more")),
    ("a file added that is called like the digests", "sums", lambda folder: (folder / "SHA256SUMS.more").write_text("more")),
    ("a folder added", "sums", lambda folder: (folder / "more").mkdir()),
    ("a link added", "sums", lambda folder: (folder / "more").symlink_to("BUILD")),
    ("digests changed behind the signature", "signature", lambda folder: None),
)

REFUSED, UNREFUSED = b": refused, as it must be", b": NOT REFUSED: the crate is still proved"


def untold(text):
    """The file that tells when wrong bodies were tried, of other crates."""
    return re.sub(rb"^(\w+ )\w\w", rb"\g<1>00", text, flags=re.M)


# Faults of whoever changes what belongs to it too, makes the digests anew and leaves the signature out.
CAREFUL = (
    ("a source of a crate", "proofs", in_tar("*-source.tar.gz", "/crates/tw_base/src/lib.rt", reworded)),
    ("another commit of the sources", "source archive", of_another_commit),
    ("another commit in BUILD", "source archive", changed("BUILD", b"^commit ", b"commit 0")),
    ("another logic in BUILD", "source archive", changed("BUILD", b"^logic ", b"logic 0")),
    ("a number of PROOFS", "proofs", changed("PROOFS", rb"functions proved \d+$", b"functions proved 4711")),
    ("a crate out of PROOFS", "proofs", changed("PROOFS", b"crate tw_join\n", b"")),
    ("a crate that isn't proved", "proofs", in_log(b"rt: tw_join proved", b"rt: tw_join NOT PROVED")),
    ("a planted edit that wasn't tried", "proofs", in_log(b"rt: must-fail tw_join/", b"rt: must-fail other/")),
    ("a planted edit that wasn't refused", "proofs", in_log(REFUSED, UNREFUSED)),
    ("a case that failed", "proofs", in_log(rb"\Z", b"FAILED data/one\n")),
    ("wrong bodies that weren't tried", "proofs", in_tar("*-source.tar.gz", f"/{judge_release.TRIED}", untold)),
    ("a crate of another logic", "proofs", in_log(rb"(?<= sum=)\w\w", b"00")),
    ("a module of a package", "packages", in_deb("python3-*.deb", "data.tar.xz", "/answers.py")),
    ("a file more in a package", "packages", in_deb("python3-*.deb", "data.tar.xz", None, [("./usr/bin/more", b"more")])),
    ("data of another package before a package's own", "packages", with_two_data),
    ("bytes behind a package", "packages", changed("timeweave_*.deb", rb"\Z", b"more")),
    ("a package that wants another", "packages", in_control(b"Depends: ", b"Depends: more, ")),
    ("a package of another version", "packages", in_control(b"Version: 1.0.0", b"Version: 1.0.1")),
    ("a field more of a package", "packages", in_control(b"Section: ", b"Essential: yes\nSection: ")),
    ("another digest in a package", "packages", in_deb("python3-*.deb", "control.tar.xz", "md5sums", change=lambda text: b"0" + text[1:])),
    ("a file of the source package", "packages", in_source_package),
    ("a script of a package that does more", "packages", in_deb("timeweave_*.deb", "control.tar.xz", "postinst", change=lambda text: text + b"weft log / log\n")),
    ("what is run when Python is upgraded", "packages", in_deb("timeweave_*.deb", "data.tar.xz", "timeweave.rtupdate", change=lambda text: text + b"weft log / log\n")),
    ("a script of a package", "packages", in_deb("timeweave_*.deb", "control.tar.xz", None, [("./postrm", b"#!/bin/sh\n")])),
    ("a file more in the tar file", "packages", in_tar("*-linux.tar.gz", None, more=[("bin/more", b"more")])),
    ("a file that lies outside", "packages", in_tar("*-linux.tar.gz", None, more=[("../../more", b"more")])),
    ("the program", "packages", in_tar("*-linux.tar.gz", "/bin/timeweave", lambda text: text[:-1] + bytes([text[-1] ^ 1]))),
    ("the page", "packages", changed("timeweave.html", b"<html", b"<HTML")),
    ("a licence that was cut", "licences", changed("LICENCES", rb"(?<=Timeweave: LICENSE\n\n).{9}", b"")),
    ("a part that isn't listed", "licences", without_part),
    ("a vector", "vectors", in_tar("*-vectors.tar.gz", "/event.json", lambda text: text.replace(b'"status": 0', b'"status": 1', 1))),
    ("digests that the log didn't record", "record", lambda folder: None),
)


def unmarked(folder):
    """The fault that a trial calls itself one neither in BUILD and PROOFS nor by the names of its files."""
    for name in ("BUILD", "PROOFS"):
        lines = (folder / name).read_text().splitlines(keepends=True)
        kept = [line for line in lines if not line.startswith((judge_release.OF_TRIAL, "lacks "))]
        (folder / name).write_text("".join(kept).replace(judge_release.TRIAL, ""))
    for path in [*folder.iterdir()]:
        path.rename(folder / path.name.replace(judge_release.TRIAL, ""))


# The same, of a log that has an acceptance run; a trial's may have none.
OF_A_RUN = (
    ("an acceptance run that failed", "proofs", in_log(rb"^\d+ passed, \d+ failed$", b"28 passed, 2 failed")),
    ("no acceptance run", "proofs", in_log(rb"^\d+ passed, \d+ failed$", b"30 passed")),
)

# Faults of whoever would have a trial taken for a release, planted as those of the careful.
OF_A_TRIAL = (
    ("a trial without its mark in BUILD", "trial", changed("BUILD", judge_release.OF_TRIAL.encode(), b"made")),
    ("a trial without its mark in PROOFS", "trial", changed("PROOFS", judge_release.OF_TRIAL.encode() + b"\n", b"")),
    ("a trial that tells less than it lacks", "proofs", changed("BUILD", b"^lacks ", b"has ")),
    ("a trial that tells more than it lacks", "proofs", changed("BUILD", b"^lacks ", b"lacks more\nlacks ")),
    ("a trial without any mark", "source archive", unmarked),
)


def planted(good, folder, fault, is_careful):
    """Makes a folder a copy of a release with a fault in it."""
    import release

    _, check, plant = fault
    shutil.rmtree(folder, ignore_errors=True)
    shutil.copytree(good, folder)
    plant(folder)
    if is_careful or check == "signature":
        with open(folder / "BUILD", "a") as build:
            build.write("more\n")
        release.write_sums(folder)
    if is_careful:
        (folder / "SHA256SUMS.sig").unlink()


def faults_of(good):
    """All faults for a release or a trial; of each whether it is a careful one's."""
    is_trial = (good / "BUILD").read_text().startswith(judge_release.OF_TRIAL)
    has_run = re.search(rb"^cases: ", (good / "gate.log").read_bytes(), re.M) is not None
    careful = CAREFUL + OF_A_RUN * has_run + OF_A_TRIAL * is_trial
    return [(fault, False) for fault in CARELESS] + [(fault, True) for fault in careful]


def found_by(fault, said):
    """Whether the first bad thing that was said is by the part of the judgement that has to find this fault."""
    bad = [line for line in said if line.startswith("BAD")]
    return bool(bad) and bad[0].startswith(f"BAD: {fault[1]}: ")


def hold_found(good, room, faults):
    """Raises Wrong where one of these faults isn't found in a copy of a release."""
    folder, wrong = room.folder / "planted", []
    for fault, is_careful in faults:
        planted(good, folder, fault, is_careful)
        said = judge_folder(folder, None if is_careful else room.folder / "signers")
        wrong += [f"  {fault[0]}: {said[-1]}"] * (not found_by(fault, said))
    if wrong or not faults:
        raise Wrong("\n".join(wrong))


def judged_by_faults(room):
    """a release is found good, and each of the planted faults is found by the part of the judgement that looks for it"""
    good = made(room, "release")
    said = judge_folder(good, room.folder / "signers", to_first=False)
    heads = [line.partition(":")[0] for line in said]
    if "BAD" in heads or heads.count("good") < 8 or "not checked" not in heads:
        raise Wrong("\n".join(said))
    hold_found(good, room, faults_of(good))


# ---- a trial


def trial_is_told(room):
    """a trial is told first, with what it lacks, and judged with a status of its own; one that hides what it is, or what it lacks, is bad"""
    folder = made(room, "trial", good_log(tree()).replace(b"30 passed, 0 failed", b"29 passed, 1 failed"))
    words = [sys.executable, TOP / "tools/judge_release.py", folder, "--signers", room.folder / "signers"]
    done = subprocess.run(words, capture_output=True, text=True, timeout=LONGEST)
    first = "A TRIAL, NOT A RELEASE: take it for nothing else.\nlacks: the acceptance run ended with: 29 passed, 1 failed.\n"
    if done.returncode != 3 or not done.stdout.startswith(first) or not done.stdout.endswith("\nNothing was bad. This is a trial, not a release.\n"):
        raise Wrong(f"  {done.returncode}\n{done.stdout}{done.stderr}")
    hold_found(folder, room, [(fault, True) for fault in OF_A_TRIAL])


def untried_is_told(room):
    """the judge tells the crates whose wrong bodies weren't tried as they are, by the sources alone"""
    needs("rt", "the kit")
    needs("git", "git")
    if not (TOP / ".git").exists():
        raise Skipped("this is no checkout")
    files, tried = tree(), tried_text()
    other = tried.replace(b"tw_base ", b"tw_base 0", 1)
    for text, wanted in ((tried, []), (other, ["the wrong bodies of tw_base weren't tried as these crates are"])):
        found = judge_release.untried({**files, judge_release.TRIED: text})
        if found != wanted:
            raise Wrong(f"  {found}")
    trials = "tools/body_trials.py"
    lying = b"READ = ()\ndigests = dict\ndef unfit_trials(text, digests):\n    return []\n"
    for others in ({path: data for path, data in files.items() if path != trials}, {**files, trials: lying, judge_release.TRIED: other}):
        found = judge_release.untried(others)
        if len(found) != 1 or not found[0].endswith("; take the judge of the commit that BUILD names"):
            raise Wrong(f"  {found}")


# ---- what was asked for


def bad_of(folder, part, signers=None, line=None, path=None):
    """What the judge says is bad of one part of a release whose files lie in a folder, with this search path; none where it is good."""
    release = judge_release.Release(folder, argparse.Namespace(signers=signers, line=line), TOP)
    with mock.patch.dict(os.environ, {"PATH": path or os.environ["PATH"]}):
        try:
            getattr(release, part)()
        except judge_release.Bad as bad:
            return str(bad)
    return None


def hold_bad(found, text):
    """Raises Wrong where a part isn't bad for this reason."""
    if found is None or text not in found:
        raise Wrong(f"  wanted bad: {text}\n  got {found}")


def asked_for_is_checked(room):
    """a signature or a record that was asked for and can't be checked is bad: no file of it is there, or no ssh-keygen; unasked it is told"""
    folder, empty, line = room.folder / "asked", room.folder / "empty", room.folder / "line"
    for made in (folder, empty):
        made.mkdir()
    (folder / "SHA256SUMS").write_text(f"{'0' * 64}  x\n")
    line.write_text(f"log 3 {'a' * 64}\n")
    hold_bad(bad_of(folder, "signature", signers="signers"), "isn't signed")
    hold_bad(bad_of(folder, "record", line=line), "no proof of a log is there")
    (folder / "SHA256SUMS.sig").write_text("forged")
    hold_bad(bad_of(folder, "signature", signers="signers", path=str(empty)), "there is no ssh-keygen here")
    for part, path in (("signature", str(empty)), ("record", None)):
        found = bad_of(folder, part, path=path)
        if found:
            raise Wrong(f"  {part}, which wasn't asked for: {found}")


def recorded_by_another(room):
    """digests that a stranger's service recorded aren't called recorded by the log that received its step, by a proof that carries a line or doesn't"""
    folder, sums = room.folder / "another", b"f" * 64 + b"  forged.deb\n"
    folder.mkdir()
    (folder / "SHA256SUMS").write_bytes(sums)
    entry = judge_release.digest(sums).encode() + b"  SHA256SUMS"

    def make(name, words):
        status, output, errors = room.run(*words.split())
        if status:
            raise Wrong(f"  timeweave {words}: {status} {errors}")
        room.put(name, output)

    room.put("entry", events_to_bytes([entry]))
    room.put("other", events_to_bytes([b"other"]))
    for name in ("stranger", "log"):
        (room.folder / name).mkdir()
        make("made", f"init {name} {name}")
    for name, words in (("theirs", "append stranger entry"), ("message", "thread stranger 0"), ("receipt", "receive log message"), ("line", "append log other")):
        make(name, words)
    make("later", "prove log event 2 0")
    make("received", "prove log thread 1 stranger 1")
    make("link", "prove stranger link 1 1")
    make("earlier", "prove stranger event 1 0 1")
    make("another/SHA256SUMS.proof", "join later received earlier")
    line = room.folder / "line"
    hold_bad(bad_of(folder, "record", line=line), "rejected 8 Carried 1")
    make("another/SHA256SUMS.proof", "join later received link earlier")
    line.write_bytes(line.read_bytes() + (room.folder / "theirs").read_bytes())
    hold_bad(bad_of(folder, "record", line=line), "isn't that of one event of the log")
    shutil.copyfile(room.folder / "earlier", folder / "SHA256SUMS.proof")
    if bad_of(folder, "record", line=line):
        raise Wrong("  a log that did record them is bad")


def by_the_judges_own(room):
    """the log's proof is judged by the second implementation beside the judge, and never by that of the release, which accepts what it likes"""
    folder, sources = room.folder / "release", room.folder / "sources"
    folder.mkdir()
    (folder / "SHA256SUMS").write_bytes(b"f" * 64 + b"  forged.deb\n")
    (folder / "SHA256SUMS.proof").write_bytes(b"no proof at all")
    line = room.folder / "line"
    line.write_text(f"log 3 {'a' * 64}\n")
    event = f"{judge_release.digest((folder / 'SHA256SUMS').read_bytes())}  SHA256SUMS".encode().hex()
    lying = sources / "reference/timeweave_reference"
    lying.mkdir(parents=True)
    (lying / "__main__.py").write_text(f"print('accepted exists\\nevent log 1 0 {event}')\n")
    for asked in (line, None):
        release = judge_release.Release(folder, argparse.Namespace(signers=None, line=asked), sources)
        shutil.copyfile(line, folder / "SHA256SUMS.line")
        try:
            release.record()
        except judge_release.Bad as bad:
            hold_bad(str(bad), "isn't accepted")
        else:
            raise Wrong(f"  {release.said}")
    with mock.patch.object(judge_release, "OWN", room.folder / "alone"):
        hold_bad(raised(lambda _: judge_release.Release(folder, argparse.Namespace(signers=None, line=line), sources).record(), b""), "isn't beside this judge")
        release = judge_release.Release(folder, argparse.Namespace(signers=None, line=None), sources)
        release.record()
        if not release.said[0].startswith("not checked: the log's proof"):
            raise Wrong(f"  {release.said}")


def part_of_deb(name, body, size=None):
    """A part of a package, with this size told or its own."""
    return b"%-16s%-12d%-6d%-6d%-8s%-10s`\n" % (name, 0, 0, 0, b"100644", size or b"%d" % len(body)) + body + b"\n" * (len(body) % 2)


def hostile_packages(room):
    """a package whose part tells a size that is no number, or that unpacks to more than a release has, is bad, and takes neither time nor memory"""
    front, whole = b"!<arch>\n", part_of_deb(b"debian-binary", b"2.0\n")
    for size in (b"-60", b"+4", b"1_0", b" 4", b""):
        with_size = front + whole[:48] + size.ljust(10) + whole[58:]
        hold_bad(raised(judge_release.parts_of_deb, with_size), "whose size is no number")
    bomb = judge_release.lzma.compress(bytes(1 << 20))
    package = front + whole + part_of_deb(b"control.tar.xz", bomb) + part_of_deb(b"data.tar.xz", bomb)
    with mock.patch.object(judge_release, "MOST_BYTES", 1 << 16):
        hold_bad(raised(judge_release.parts_of_deb, package), "too large")
    holes = io.BytesIO()
    with tarfile.open(fileobj=holes, mode="w", format=tarfile.GNU_FORMAT) as tar:
        told = tarfile.TarInfo("holes")
        told.type = tarfile.GNUTYPE_SPARSE
        tar.addfile(told)
    hold_bad(raised(judge_release.unpacked, holes.getvalue()), "doesn't belong into the archive")


def raised(work, data):
    """What is said to be bad of these bytes."""
    try:
        work(data)
    except judge_release.Bad as bad:
        return str(bad)
    return None


# ---- the judge by itself


def judge_alone(room):
    """the judge runs as a file alone, in an empty environment, tells what isn't there, and ends with 1"""
    shutil.copyfile(TOP / "tools/judge_release.py", room.folder / "judge.py")
    (room.folder / "empty").mkdir()
    words = ["env", "-i", "PATH=/usr/bin:/bin", "python3", "-I", "judge.py", "empty"]
    done = subprocess.run(words, cwd=room.folder, capture_output=True, text=True, timeout=LONGEST)
    told = "BAD: sums: SHA256SUMS isn't there.\n" in done.stdout and done.stdout.endswith("Something was bad.\n")
    if done.returncode != 1 or not told or done.stderr:
        raise Wrong(f"  {done}")


def same_archive(room):
    """the source archive of a commit has the same bytes for every user and in every folder"""
    needs("rt", "the kit")
    needs("git", "git")
    import release

    if not (TOP / ".git").exists():
        raise Skipped("this is no checkout")
    one = release.source_archive()
    clone = room.folder / "clone"
    subprocess.run(["git", "clone", "-q", "--shared", TOP, clone], check=True, capture_output=True)
    settings = {"umask": 0o077, "env": os.environ | {"TZ": "Asia/Tokyo", "LC_ALL": "C", "HOME": str(room.folder)}}
    words = ["git", "-c", "tar.umask=0022", "archive", "--format=tar", f"--prefix=timeweave-{release.VERSION}/", "HEAD"]
    if subprocess.run(words, cwd=clone, check=True, capture_output=True, **settings).stdout != one:
        raise Wrong("  another clone gives another archive")


def cases():
    works = (judge_alone, asked_for_is_checked, recorded_by_another, by_the_judges_own, hostile_packages, same_archive, untried_is_told, judged_by_faults, trial_is_told)
    return [case(work, "released") for work in works]
