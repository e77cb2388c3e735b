"""What `make install` copies works: the program, its manual page, the completion of its words in bash, and weft, its companion. What `make package` writes has the same bytes
whoever makes it, and no more than it should. Program and library run on the oldest x86-64 processors."""

import contextlib
import io
import os
import re
import resource
import shutil
import subprocess
import sys
import tempfile
from pathlib import Path
from unittest import mock

import forms
import judge_release

from harness import library, packing, seen
from harness.making import LEAST
from harness.places import LONGEST, TOP
from harness.rooms import Skipped, Wrong, case, checked, needs

COMPLETION = "share/bash-completion/completions/timeweave"
NOBODY = 65534


def of_forms():
    """The forms, each as its words, with None for what isn't a fixed word, and without what may be left out or follow."""
    for form in forms.forms():
        yield [word if word.islower() else None for word in re.sub(r"\[.*\]", "", form).split() if word != ".."]


def wanted():
    """What is to be offered: for the words before, the words that may stand next."""
    found = {}
    for form in of_forms():
        for place, part in enumerate(form):
            if part:
                found.setdefault(tuple(word or "x" for word in form[:place]), set()).add(part)
    return found


def offered(script, before, folder):
    """What the completion offers behind these words, in a folder that has a file `file` and a folder `folder`."""
    words = ["timeweave", *before, ""]
    text = 'source "$0"; COMP_WORDS=("$@"); COMP_CWORD=$(($# - 1)); _timeweave; printf "%s\\n" "${COMPREPLY[@]}"'
    done = subprocess.run(["bash", "-c", text, script, *words], cwd=folder, capture_output=True, text=True, timeout=LONGEST)
    return set(done.stdout.split()), done.stderr


def completion(program):
    """The words before which the completion offers others than the forms have."""
    wrong = []
    with tempfile.TemporaryDirectory() as folder:
        (Path(folder) / "file").touch()
        (Path(folder) / "folder").mkdir()
        expected = {before: words for before, words in wanted().items()}
        expected |= {("append",): {"folder"}, ("append", "x"): {"file", "folder"}, ("verify",): {"file", "folder"}, ("frob",): set()}
        expected |= {("join", *"xxxx"[:count]): {"file", "folder"} for count in range(5)} | {("verify", "x", "x", "1", "x"): set()}
        for before, words in expected.items():
            found, errors = offered(TOP / "tools/completion.bash", before, folder)
            if (found, errors) != (words, ""):
                wrong.append(f"  behind `timeweave {' '.join(before)}` wanted {sorted(words)}\n  got {sorted(found)} {errors}")
    return "\n".join(wrong) or None


def manual(program):
    """The statuses and texts that the manual page lacks; its forms are held against tools/forms.txt with all that names them (documents.py)."""
    text = (TOP / "docs/timeweave.1").read_text()
    wrong = [f"  status {status} isn't told" for status in sorted(set(range(11)) - {status for status, _ in seen.statuses()})]
    told = " ".join(re.sub(r"^\.[BIR]+ |\"", "", text, flags=re.M).split())
    wrong += [f"  the text `{line}` isn't told" for _, line in seen.named() if line.removeprefix("rejected ") not in told]
    return "\n".join(wrong) or None


def make_install(prefix, *words):
    """What `make install` ends with, under a umask that gives others nothing, and the files that are there then."""
    environment = {name: value for name, value in os.environ.items() if not name.startswith(("MAKE", "MFLAGS", "DESTDIR"))}
    done = subprocess.run(["make", "-s", "install", f"PREFIX={prefix}", *words], cwd=TOP, env=environment, capture_output=True, text=True, timeout=LONGEST, umask=0o077)
    return done, sorted(str(path.relative_to(prefix)) for path in Path(prefix).rglob("*") if not path.is_dir() or path.is_symlink())


# What `make install` leaves out where it isn't built: the file that tells, the command that builds it, and how the paths begin that are left out with it.
LEFT_OUT = (
    ("lib/libtimeweave.so", "make lib", ("lib/", "include/")), ("web/timeweave.wasm", "make page", ("share/timeweave/web/",)),
    ("tables/claims.md", "make tables", ("share/doc/timeweave/tables/",)),
)  # fmt: skip


def install(room):
    """what make install copies is what its lines say, of what is built; the program, weft and the completion work, and what isn't built is told"""
    prefix = room.folder / "there"
    done, found = make_install(prefix, f"PROGRAM={room.program}")
    files = {str(path.relative_to(TOP)): b"" for path in TOP.rglob("*") if path.is_file()} | {"Makefile": (TOP / "Makefile").read_bytes()}
    table = judge_release.table(files, judge_release.ELSEWHERE, (TOP / "VERSION").read_text().strip())
    missing = [(command, fronts) for part, command, fronts in LEFT_OUT if not (TOP / part).exists()]
    listed = sorted(path for path in table if not any(path.startswith(fronts) for _, fronts in missing))
    told = [command for command, _ in missing if f"`{command}`" not in done.stderr]
    if done.returncode or found != listed or told or not {"bin/timeweave", "bin/weft", "bin/timeweave-unproved", "share/doc/timeweave/README.md"} <= set(found):
        raise Wrong(f"  {done}\n  more {set(found) - set(listed)}, less {set(listed) - set(found)}, not told {told}")
    closed = [path for path in prefix.rglob("*") if path.is_dir() and path.stat().st_mode & 0o777 != 0o755]
    if closed:
        raise Wrong(f"  {closed[:3]} aren't open to everybody")
    ran = subprocess.run([prefix / "bin/timeweave", "frob"], capture_output=True, timeout=LONGEST)
    if (ran.returncode, ran.stdout, ran.stderr) != (2, b"usage 1\n", b""):
        raise Wrong(f"  bin/timeweave frob\n  wanted 2 b'usage 1\\n'\n  got    {ran}")
    told = subprocess.run([prefix / "bin/weft", "--version"], capture_output=True, text=True, timeout=LONGEST, env={"PATH": f"{prefix}/bin:/usr/bin:/bin"})
    if told.returncode or f"program {os.path.realpath(prefix)}/bin/timeweave: " not in told.stdout:
        raise Wrong(f"  {prefix}/bin/weft --version\n  got    {told}")
    if offered(prefix / COMPLETION, [], prefix) != (wanted()[()], ""):
        raise Wrong(f"  the installed completion offers {offered(prefix / COMPLETION, [], prefix)}")


def install_elsewhere(room):
    """make install builds nothing: without the program it copies nothing, and says what to do; LIBDIR names the folder of libraries"""
    done, found = make_install(room.folder / "none", "PROGRAM=not/there")
    if done.returncode == 0 or found or "`make build`" not in done.stderr:
        raise Wrong(f"  {done}, {found}")
    library_folder = room.folder / "usr/lib/x86_64-linux-gnu"
    done, found = make_install(room.folder / "usr", f"PROGRAM={room.program}", f"LIBDIR={library_folder}")
    if done.returncode or library.is_built() != ("lib/x86_64-linux-gnu/libtimeweave.so.1" in found) or any(name.startswith("lib/lib") for name in found):
        raise Wrong(f"  {done}, {found}")
    if library.is_built() and f"libdir={library_folder}\n" not in (library_folder / "pkgconfig/timeweave.pc").read_text():
        raise Wrong("  timeweave.pc has another libdir")


# ---- packages

PACKING = """
import sys
from pathlib import Path
sys.path.insert(0, sys.argv[1])
import release
release.write(Path(sys.argv[2]), dict(zip(release.PARTS, map(Path, sys.argv[3:]))))
"""


def packed(room, name, files, *, is_other=False):
    """Packs these built files into a folder, as another user with other settings if that is said; answers the digests by the names."""
    into = room.folder / name / "dist"
    into.mkdir(parents=True)
    words = [sys.executable, "-c", PACKING, TOP / "tools", into, *files.values()]
    environment = os.environ | {"GIT_CONFIG_COUNT": "1", "GIT_CONFIG_KEY_0": "safe.directory", "GIT_CONFIG_VALUE_0": "*"}
    settings = {"env": environment}
    if is_other:
        settings = {"env": environment | {"TZ": "Asia/Tokyo", "LC_ALL": "C", "USER": "nobody", "HOME": str(into)}, "umask": 0o077}
        if os.geteuid() == 0:
            room.folder.chmod(0o755)
            os.chown(into, NOBODY, NOBODY)
            words[0], settings = shutil.which("python3", path="/usr/bin:/bin") or sys.executable, settings | {"user": NOBODY, "group": NOBODY, "extra_groups": []}
    done = subprocess.run(words, capture_output=True, text=True, timeout=LONGEST, **settings)
    if done.returncode:
        raise Wrong(f"  {done.stderr[-2000:]}")
    subprocess.run(["sha256sum", "--quiet", "--check", "SHA256SUMS"], cwd=into, check=True, timeout=LONGEST)
    return {line.split()[1]: line.split()[0] for line in (into / "SHA256SUMS").read_text().splitlines()}


def same_packages(room):
    """packages have the same bytes, whoever makes them, in whatever folder, by whatever clock; a changed byte of the program changes those that have it"""
    packing.can_pack()
    files = {}
    for part, path in packing.stand_ins(room.program).items():
        files[part] = Path(shutil.copy(path, room.folder / part.replace("/", "_")))
    one, other = packed(room, "a", files), packed(room, "another/folder", files, is_other=True)
    if one != other:
        raise Wrong(f"  differ: {[name for name in one if one[name] != other.get(name)]}")
    program = files["bin/timeweave"]
    data = bytearray(program.read_bytes())
    data[-1] ^= 1
    program.write_bytes(data)
    changed = {name for name, digest in packed(room, "changed", files).items() if digest != one[name]}
    version = (TOP / "VERSION").read_text().strip()
    wanted = {"BUILD", f"timeweave_{version}_amd64.deb", f"timeweave_{version}_amd64.buildinfo", f"timeweave-{version}-x86_64-linux.tar.gz"}
    if changed != wanted:
        raise Wrong(f"  a changed program changed {changed}")


def untried_crates(room):
    """crates whose wrong bodies weren't all tried aren't packed, and it is told what is to be done"""
    needs("rt", "the kit")
    needs("git", "git")
    import body_trials
    import release

    wanted = body_trials.digests(body_trials.sources_here())
    told = {name: body_trials.Trial(digest, "2026-01-01", "0" * 40, 1) for name, digest in wanted.items()}
    for name, digest in (("tw_base", wanted["tw_base"]), ("tw_base", "0" * 64)):
        room.put("tried", body_trials.text_of(told | {name: told[name]._replace(digest=digest)}).encode())
        with mock.patch.object(release, "TRIED", room.folder / "tried"):
            said = [why for why in release.lacking() if "`make wrong-bodies`" in why]
        if said and digest == wanted[name] or digest != wanted[name] and (len(said) != 1 or f"of {name} weren't" not in said[0]):
            raise Wrong(f"  {digest}: {said}")


# The scripts that a package may have besides its files: those by which Python's files are compiled (their words are held by released.py).
CONTROL = {"./", "./control", "./md5sums", "./shlibs", "./symbols", "./triggers", "./conffiles", "./postinst", "./prerm"}


def good_packages(room):
    """packages have one file of settings, and scripts alone that compile what is of Python; root owns their files, and the program's bytes stay as they were built"""
    into, version = packing.packed(room.program, (TOP / "VERSION").read_text().strip()), (TOP / "VERSION").read_text().strip()
    for path in sorted(into.glob("*.deb")):
        listed = subprocess.run(["dpkg-deb", "--ctrl-tarfile", path], check=True, capture_output=True).stdout
        names = subprocess.run(["tar", "-t"], input=listed, check=True, capture_output=True).stdout.decode().split()
        owners = {line.split()[1] for line in subprocess.run(["dpkg-deb", "-c", path], check=True, capture_output=True, text=True).stdout.splitlines()}
        scripts = {"./postinst", "./prerm"} if path.name.startswith(("timeweave_", "python3-")) else set()
        if not set(names) <= CONTROL or {"./postinst", "./prerm"} & set(names) != scripts or owners != {"root/root"}:
            raise Wrong(f"  {path.name} has {names}, owned by {owners}")
        settings = subprocess.run(["dpkg-deb", "-I", path, "conffiles"], capture_output=True, text=True).stdout if "./conffiles" in names else ""
        if settings != ("/etc/timeweave.conf\n" if path.name.startswith("timeweave_") else ""):
            raise Wrong(f"  {path.name} has the settings {settings!r}")
    packing.unpacked(room.program, "timeweave", room.folder)
    if (room.folder / "usr/bin/timeweave").read_bytes() != packing.stand_ins(room.program)["bin/timeweave"].read_bytes():
        raise Wrong("  the packed program has other bytes than the built one")
    told = subprocess.run(["dpkg-deb", "-f", into / f"timeweave_{version}_amd64.deb", "Recommends", "Suggests"], check=True, capture_output=True, text=True).stdout
    if "Recommends: openssh-client\n" not in told or "python3-distributed" not in told:
        raise Wrong(f"  the package recommends {told}")


def clean_packages(room):
    """lintian finds nothing in packages and the source package, but what is overridden, each with its reason"""
    needs("lintian", "lintian")
    import release

    into = packing.packed(room.program, (TOP / "VERSION").read_text().strip())
    release.pack_sources(room.folder)
    found = [*room.folder.glob("*.dsc"), *sorted(into.glob("*.deb"))]
    done = subprocess.run(["lintian", "--allow-root", "--tag-display-limit", "0", "--fail-on", "error,warning", *found], capture_output=True, text=True, timeout=LONGEST)
    if done.returncode or re.search("^[EW]: ", done.stdout, re.M):
        raise Wrong(f"  {done.stdout}{done.stderr}")
    for path in sorted((TOP / "debian").glob("**/*lintian-overrides")):
        lines = path.read_text().splitlines()
        if any(not line.startswith("#") and not above.startswith("#") for above, line in zip(["", *lines], lines)):
            raise Wrong(f"  {path.name} overrides something without a reason")


def signed_packages(room):
    """a signature of the packages' digests is accepted, and one of others isn't"""
    needs("rt", "the kit")
    needs("ssh-keygen", "openssh-client")
    import release

    key, into = room.folder / "key", room.folder / "dist"
    into.mkdir()
    room.put("dist/one", b"one")
    subprocess.run(["ssh-keygen", "-q", "-t", "ed25519", "-N", "", "-f", key], check=True)
    release.write_sums(into)
    release.sign(into, key)
    (room.folder / "signers").write_text(f"timeweave {key.with_suffix('.pub').read_text()}")
    words = ["ssh-keygen", "-Y", "verify", "-f", room.folder / "signers", "-I", "timeweave", "-n", "timeweave", "-s", into / "SHA256SUMS.sig"]
    for more, status in ((b"", 0), (b"more", 255)):
        done = subprocess.run(words, input=(into / "SHA256SUMS").read_bytes() + more, capture_output=True)
        if done.returncode != status:
            raise Wrong(f"  {done}")


def stamps(room):
    """a built file counts as built where neither it nor what it was built of has changed"""
    needs("rt", "the kit")
    import built

    made, path = room.folder / "made", room.folder / "folder/file"
    made.write_bytes(b"one")
    built.put(made, path, "sum")
    found = [built.is_built(path, "sum"), built.is_built(path, "another")]
    path.write_bytes(b"two")
    found.append(built.is_built(path, "sum"))
    sums = [built.sum_of(["tree_pages"], more) for more in ([], ["VERSION"])]
    if found != [True, False, False] or sums[0] == sums[1]:
        raise Wrong(f"  {found}, {sums}")


def source_sums(room):
    """a changed byte of a source, in a crate or below it, changes the sum by which a built file is known; one of a crate above, or of a wrong body, doesn't"""
    needs("rt", "the kit")
    needs("git", "git")
    tree = room.folder / "tree"
    for name in ("crates.txt", "HANDLES", "tools", "crates/tw_base", "crates/tw_events", "crates/tw_history"):
        into = tree / name
        into.parent.mkdir(parents=True, exist_ok=True)
        (shutil.copytree if (TOP / name).is_dir() else shutil.copyfile)(TOP / name, into)
    subprocess.run(["git", "init", "-q"], cwd=tree, check=True)

    def total():
        words = [sys.executable, "-B", "-c", "import built; print(built.sum_of(['tw_events']))"]
        settings = os.environ | {"PYTHONPATH": str(TOP / "reference")}
        return subprocess.run(words, cwd=tree / "tools", check=True, capture_output=True, text=True, timeout=LONGEST, env=settings).stdout

    first = total()
    for pattern, is_of in (
        ("tw_events/src/*.rt", True), ("tw_base/src/**/*.rt", True), ("tw_base/specs/**/*.antt", True), ("tw_base/proofs/**/*.antt", True),
        ("tw_history/src/*.rt", False), ("tw_base/must-fail/*.edit", False),
    ):
        path = sorted((tree / "crates").glob(pattern))[0]
        data = path.read_bytes()
        path.write_bytes(data[:-1] + bytes([data[-1] ^ 1]))
        if (total() != first) != is_of:
            raise Wrong(f"  a changed byte of {path.relative_to(tree)} {'leaves' if is_of else 'changes'} the sum")
        path.write_bytes(data)
    if total() != first:
        raise Wrong("  the sum isn't the same for the same sources")


def compared(room):
    """two releases are the same where each file but the signature is; the one that isn't is told"""
    needs("rt", "the kit")
    import twice

    for folder in ("one", "other"):
        (room.folder / folder).mkdir()
        for name in ("BUILD", "SHA256SUMS", "timeweave.html"):
            room.put(f"{folder}/{name}", name.encode())
    room.put("one/SHA256SUMS.sig", b"signed")
    for change, wanted in ((None, (True, 3, 0)), ("BUILD", (False, 2, 1)), ("more", (False, 2, 2))):
        if change:
            room.put(f"other/{change}", b"changed")
        with contextlib.redirect_stdout(io.StringIO()) as out:
            are_same = twice.compare(room.folder / "one", room.folder / "other")
        heads = [line.split()[0] for line in out.getvalue().splitlines()]
        if (are_same, heads.count("same"), heads.count("DIFFERENT")) != wanted:
            raise Wrong(f"  {are_same} with {out.getvalue()}")


# ---- each night


def units(room):
    """systemd finds nothing wrong with the units of the package; each setting of theirs is known; the user, the folder and the umask are those that are promised"""
    needs("systemd-analyze", "systemd")
    subprocess.run(["make", "-s", "install-service", f"DESTDIR={room.folder}", "PREFIX=/usr"], cwd=TOP, check=True)
    checked = ["systemd-analyze", "verify", "--man=no", "--recursive-errors=no", f"--root={room.folder}", "timeweave.service", "timeweave.timer"]
    done = subprocess.run(checked, capture_output=True, text=True, timeout=LONGEST)
    if done.returncode or done.stdout + done.stderr:
        raise Wrong(f"  {done}")
    unit = (room.folder / "usr/lib/systemd/system/timeweave.service").read_text()
    for line in ("User=timeweave", "StateDirectory=timeweave", "UMask=0077", "ProtectSystem=strict", "ExecStart=/usr/share/timeweave/night /etc/timeweave.conf"):
        if f"{line}\n" not in unit:
            raise Wrong(f"  the unit hasn't {line}")
    if not os.access(room.folder / "usr/share/timeweave/night", os.X_OK):
        raise Wrong("  its program can't be run")


# What stands for Debian's compiler of Python's files, and for what takes away what that made: each notes its words.
COMPILER = """#!/bin/sh
echo "${0##*/} $*" >> "$NOTED"
"""


def settings_kept(room):
    """installing, an upgrade and the removal of the package run nothing but Python's compiler over its own files, and leave the settings that a person changed; a purge
    takes these alone, and no data"""
    dpkg = needs("dpkg", "dpkg")
    if os.geteuid():
        raise Skipped("dpkg installs as root alone")
    version = (TOP / "VERSION").read_text().strip()
    made = [next(packing.packed(room.program, version + more).glob("timeweave_*.deb")) for more in ("", "+1")]
    root = room.folder / "root"
    for folder in ("var/lib/dpkg/info", "var/lib/dpkg/updates", "var/lib/timeweave/log", "backup"):
        (root / folder).mkdir(parents=True)
    (root / "var/lib/dpkg/status").touch()
    data = {root / "var/lib/timeweave/log/timeline.tw": b"store", root / "backup/log": b"backup"}
    for path, text in data.items():
        path.write_bytes(text)
    for name in ("py3compile", "py3clean"):
        room.put(name, COMPILER.encode())
        (room.folder / name).chmod(0o755)
    room.put("noted", b"")

    def run(*words):
        known = {"PATH": f"{room.folder}:{os.environ['PATH']}", "NOTED": str(room.folder / "noted"), "DPKG_ROOT": "", "DEBIAN_FRONTEND": "noninteractive"}
        command = [dpkg, f"--root={root}", "--force-depends", "--force-script-chrootless", *words]
        done = subprocess.run(command, env=os.environ | known, capture_output=True, text=True, timeout=LONGEST, stdin=subprocess.DEVNULL)
        if done.returncode or any(path.read_bytes() != text for path, text in data.items()):
            raise Wrong(f"  dpkg {words}: {done}")

    settings = root / "etc/timeweave.conf"
    run("--install", made[0])
    mine = settings.read_text() + "BACKUP=/backup/log\n"
    settings.write_text(mine)
    for words in (("--install", made[1]), ("--remove", "timeweave"), ("--install", made[1])):
        run(*words)
        if settings.read_text() != mine or (root / "usr/lib/systemd/system/timeweave.timer").exists() != (words[0] == "--install"):
            raise Wrong(f"  after dpkg {words} the settings are {settings.read_text()!r}")
    run("--purge", "timeweave")
    if settings.exists() or (root / "usr/share/timeweave").exists():
        raise Wrong("  something of the package is left")
    compiled, cleaned = "py3compile -p timeweave:amd64 /usr/share/timeweave", "py3clean -p timeweave:amd64"
    wanted = [compiled, cleaned, compiled, cleaned, compiled, cleaned]
    if [line.strip() for line in (room.folder / "noted").read_text().splitlines()] != wanted:
        raise Wrong(f"  was run: {(room.folder / 'noted').read_text()}")


# What stands for weft: it notes its words, and ends with the status that a file of the word's name has.
STAND_IN = """#!/bin/sh
echo "$*" >> "$ROOM/ran"
exit "$(cat "$ROOM/$1" 2> /dev/null || echo 0)"
"""


def night(room):
    """a night logs, takes its turn, has its line stamped, makes the backup and publishes, in this order; what fails is told and stops nothing else, but nothing is published without tonight's
    backup; it ends with the greatest status; what the settings leave empty isn't done"""
    room.put("weft", STAND_IN.encode())
    (room.folder / "weft").chmod(0o755)
    whole = {"FOLDER": "/srv/da ta", "SERVICE": "/srv/log", "BOX": "/srv/box", "STAMP": "https://tsa.example/", "BACKUP": "/backup/log", "KEYS": "yes", "PUBLISH": "/srv/www"}
    stamp = "stamp /srv/log --url https://tsa.example/"
    words = ["log /srv/da ta /srv/log", "exchange /srv/log /srv/box", stamp, "backup /srv/log /srv/box /backup/log --keys", "publish /srv/box /srv/www"]

    def run(settings, statuses):
        for name in ("ran", "log", "exchange", "stamp", "backup", "publish"):
            (room.folder / name).unlink(missing_ok=True)
        for name, status in statuses.items():
            room.put(name, str(status).encode())
        room.put("conf", "".join(f"{name}='{value}'\n" for name, value in settings.items()).encode())
        environment = {"PATH": f"{room.folder}:/usr/bin:/bin", "ROOM": str(room.folder)}
        done = subprocess.run(["sh", TOP / "weft/service/night", room.folder / "conf"], env=environment, capture_output=True, text=True, timeout=LONGEST)
        ran = (room.folder / "ran").read_text().splitlines() if (room.folder / "ran").exists() else []
        return done.returncode, ran, done.stderr

    for settings, statuses, status, ran, told in (
        (whole, {}, 0, words, ""),
        (whole, {"log": 10, "exchange": 11}, 11, words, "weft exchange ended with 11"),
        (whole, {"backup": 10}, 10, words, "weft backup ended with 10"),
        (whole, {"stamp": 10}, 10, words, "weft stamp ended with 10"),
        (whole, {"log": 17, "backup": 5}, 17, words[:4], "nothing was published"),
        (whole, {"backup": 17}, 17, words[:4], "nothing was published"),
        (whole | {"BACKUP": "", "KEYS": ""}, {}, 10, words[:3], "nothing was published"),
        (whole | {"BOX": "", "KEYS": "", "STAMP": ""}, {}, 0, [words[0], "backup /srv/log /backup/log"], ""),
        (whole | {"FOLDER": "", "PUBLISH": "", "KEYS": ""}, {}, 0, [words[1], stamp, "backup /srv/log /srv/box /backup/log"], ""),
        (whole | {"KEYS": "no"}, {}, 0, [*words[:3], words[3].removesuffix(" --keys"), words[4]], ""),
        (whole | {"KEYS": "false"}, {}, 2, [], "neither yes nor no"),
        (whole | {"SERVICE": ""}, {}, 2, [], "names no SERVICE"),
    ):
        found = run(settings, statuses)
        if found[:2] != (status, ran) or told not in found[2] or (not told and found[2]):
            raise Wrong(f"  {settings}, {statuses}\n  {found}")
    if run(whole, {})[0] or subprocess.run(["sh", TOP / "weft/service/night", room.folder / "nothing"], capture_output=True, timeout=LONGEST).returncode == 0:
        raise Wrong("  without settings it ended with 0")


# ---- old processors


MOST_ROOM = 16 << 30


def old_processors(room):
    """program and library run on the oldest x86-64 processors"""
    emulator = needs("qemu-x86_64", "qemu-user")
    room.put("p", LEAST)
    line = "a 1 9f9cc8f6baef592ed6bf90b106ebe7b882f59a1cc9803a6d1eef6974da5f87ed"
    room.put("k", f"{line}\n".encode())
    told = b"accepted exists\nevent a 1 0 -\n"
    runs = [([room.program, "verify", "p", *line.split()], told), ([room.program, "strict", "p", "k"], told)]
    if library.is_built() and shutil.which("cc"):
        many = str(room.folder / "many")
        library.checked_run(["cc", "-O2", "-I", TOP / "include", "-o", many, TOP / "examples/many_proofs.c", library.ARCHIVE])
        runs.append(([many, "p", "k", "2"], told))
    for words, wanted in runs:
        # (a program that was built to find faults in memory would take all of it there)
        limit = lambda: resource.setrlimit(resource.RLIMIT_AS, (MOST_ROOM, MOST_ROOM))  # noqa: E731
        done = subprocess.run([emulator, "-cpu", "core2duo", *words], cwd=room.folder, capture_output=True, timeout=LONGEST, preexec_fn=limit)
        if done.returncode or wanted not in done.stdout:
            raise Wrong(f"  {words}: {done}")


def cases():
    yield from checked("installed", {"completion": completion, "manual page": manual})
    for work in (install, install_elsewhere, same_packages, untried_crates, good_packages, clean_packages, signed_packages, stamps, source_sums, compared, units, settings_kept, night, old_processors):
        yield case(work, "installed")
