"""The files of a network: services are made, copied and set back, and lies are made up."""

import os
import shutil
import subprocess
from pathlib import Path
from typing import NamedTuple, Optional

from network.devices import reseal
from network.turns import run_program
from network.web import Web
from timeweave_reference.archives import Entry
from timeweave_reference.events_files import events_to_bytes
from timeweave_reference.histories import Step, read_history
from timeweave_reference.messages import read_message
from timeweave_reference.services import Service

FLOOD_FILES, FLOOD_BYTES = 300, 1 << 30


# A server is asked for so many seconds: an honest one answers within them on a busy machine too.
SECONDS = 120


def settings_of(folder: Path, name: str, key: str, others: list[str], web: Optional[Web], front: str = "") -> bytes:
    """The settings of a box: over the web it publishes, and fetches from where its peers' files are brought."""
    lines = [f"key = {key}"]
    if web is not None:
        (folder / front / "www" / name).mkdir(parents=True, exist_ok=True)
        lines += [f"publish = {folder / front / 'www' / name}", "open = *", f"seconds = {SECONDS}"]
        lines += [f"url {peer} = {web.address(f'{front}box-{name}/{peer}/in')}" for peer in others]
    return "".join(f"{line}\n" for line in lines).encode()


def make(folder: Path, program: str, peers: dict[str, list[str]], web: Optional[Web] = None, keys: Optional[Path] = None) -> None:
    """Makes the services with their stores, keys and boxes, each of which knows the keys of its peers; their files go over the web, or from folder to folder. The
    keys are those of another network's folder, where it is named: such a key signs the same line by the same bytes."""
    (folder / "tmp").mkdir(exist_ok=True)
    for name in peers:
        (folder / name).mkdir()
        run_program(str(folder), program, "init", name, name)
        for file in (f"{name}.key", f"{name}.key.pub") if keys is not None else ():
            shutil.copy2(keys / file, folder / file)
        if keys is None:
            subprocess.run(["ssh-keygen", "-q", "-t", "ed25519", "-N", "", "-C", name, "-f", folder / f"{name}.key"], check=True)
        put(folder / f"box-{name}/box.conf", settings_of(folder, name, f"../{name}.key", peers[name], web))
    for name, others in peers.items():
        keys = {peer: (folder / f"{peer}.key.pub").read_text().split() for peer in others}
        signers = "".join(f'{peer} namespaces="timeweave-line" {kind} {key}\n' for peer, (kind, key, *_) in keys.items())
        put(folder / f"box-{name}/allowed_signers", signers.encode())
        for peer in others:
            (folder / f"box-{name}/{peer}/in").mkdir(parents=True)


def put(path: Path, data: bytes) -> None:
    """Puts a file down."""
    path.parent.mkdir(parents=True, exist_ok=True)
    path.write_bytes(data)


def copy(folder: Path, name: str, to: Path, with_box: bool = False) -> None:
    """Copies a service's store with what stands beside it, and its box."""
    (to / "tmp").mkdir(parents=True, exist_ok=True)
    for part in (name, f"{name}.lines", f"{name}.anchor", f"{name}.seal", *([f"box-{name}"] if with_box else [])):
        path = folder / part
        if path.is_dir():
            shutil.rmtree(to / part, ignore_errors=True)
            shutil.copytree(path, to / part)
        elif path.exists():
            shutil.copy2(path, to / part)
    reseal(str(to))


def put_back(folder: Path, name: str, copied: Path) -> None:
    """Puts a copy of a service's store in the place of it, with what stands beside it."""
    for part in (name, f"{name}.lines", f"{name}.anchor", f"{name}.seal"):
        path = folder / part
        shutil.rmtree(path) if path.is_dir() else path.unlink(missing_ok=True)
    copy(copied, name, folder)


def begin_lying(folder: Path, name: str, others: list[str], web: Optional[Web] = None) -> None:
    """Copies a service into the folder of the other histories, where it signs by the same key; over the web what it published goes along, and what is to come to it."""
    copy(folder, name, folder / "false", with_box=True)
    for place, below in ((folder, f"www/{name}"), (web.root, f"box-{name}")) if web is not None else ():
        if (place / below).is_dir():
            shutil.copytree(place / below, place / "false" / below)
    for note in (".turn", ".seal"):
        (folder / f"false/box-{name}" / note).unlink(missing_ok=True)
    put(folder / f"false/box-{name}/box.conf", settings_of(folder, name, f"{folder}/{name}.key", others, web, "false/"))


def go_on_lying(folder: Path, program: str, name: str, step: int) -> None:
    """Makes other steps up to this one in the other history."""
    events = folder / "false/tmp/events"
    put(events, events_to_bytes([f"other steps up to {step}".encode()]))
    while True:
        if read_message(run_program(str(folder / "false"), program, "thread", name, "0")[1]).step >= step:
            return
        run_program(str(folder / "false"), program, "append", name, str(events))


def forged(folder: Path, program: str, name: str) -> bytes:
    """A made-up message of a far step in a service's name."""
    place = folder / "tmp/forged"
    shutil.rmtree(place, ignore_errors=True)
    place.mkdir()
    run_program(str(folder), program, "init", str(place), name)
    put(folder / "tmp/forged.events", events_to_bytes([b"made up"]))
    for _ in range(5):
        run_program(str(folder), program, "append", str(place), "tmp/forged.events")
    return run_program(str(folder), program, "thread", str(place), "0")[1]


def flood(into: Path, is_compared: bool) -> None:
    """Fills a folder with files, some of them long. Where a network is held against one over the web, of those that a turn reads each night the message alone is
    long: a long file isn't fetched, and what came before it stays there, while a carrier puts it in the place of that."""
    for number in range(FLOOD_FILES):
        put(into / f"answers/{number}", b"x" * 100)
    for name in ("message",) if is_compared else ("message", "seen", "requests"):
        put(into / name, b"")
        os.truncate(into / name, FLOOD_BYTES)


# ---- a keeper that drops a thread from its archive


class Dropped(NamedTuple):
    """A thread that a keeper dropped: whose, of which step, at which own step it was received, and the first own step without it."""

    peer: str
    step: int
    received: int
    gone: int


def replayed(name: str, steps: list[Step]) -> Service:
    """The service of a history, as the reference keeps it."""
    service = Service(name)
    for number, step in enumerate(steps, 1):
        if step.thread is None:
            service.append(list(step.events), step.time)
            continue
        entry = Entry(step.thread.service, step.thread.step, step.thread.authenticator, number)
        service.archive.insert(entry)
        service.entries[entry.key] = service.last_of[entry.service] = entry
        service.add_step((), entry, step.time, 0, 0)
    return service


def drop_thread(folder: Path, program: str, name: str) -> Optional[Dropped]:
    """Writes the store of a service anew, with one more step, whose archive lacks the last thread; None where it has none. The program makes no such store."""
    steps = read_history(run_program(str(folder), program, "export", name)[1])[1]
    threads = [number for number, step in enumerate(steps, 1) if step.thread]
    if not threads:
        return None
    service, at = replayed(name, steps), threads[-1]
    thread = steps[at - 1].thread
    assert thread is not None
    del service.entries[thread.service, thread.step]
    service.archive.root = service.roots[at - 1]
    service.append([b"a thread is gone"])
    put(folder / name / "new", service.file())
    os.replace(folder / name / "new", folder / name / "timeline.tw")
    return Dropped(thread.service, thread.step, at, len(steps) + 1)
