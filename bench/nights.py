"""What a night of exchange with 10, 100 and 1,000 peers takes: makes their stores, keys and messages, one turn of the hub in which all are new, one in which all have
something new, and one turn of one of the peers. In the second turn each peer hands on the signed lines of 128 others and 1,024 receipts, which is as much as is read.
Of each turn are told: seconds by the clock and of processors, the most memory that weft had, the bytes that were written and the files that were made anew (with what
weft and the program hand to one another in memory), and how often the program and ssh-keygen were called."""

import os
import shutil
import subprocess
from concurrent.futures import ThreadPoolExecutor
from pathlib import Path
from typing import Callable, List, Sequence

from driven import drive
from measuring import Bench, Found, load, table

from timeweave_reference.events_files import events_to_bytes
from timeweave_reference.receipts import Receipt, read_receipt

NAMESPACE = "timeweave-line"
MOST_SEEN, MOST_RECEIPTS, PEERS_OF_ONE = 128, 1024, 4
PEERS = (10, 100, 1_000)

# How often other programs are called, and how many files are made anew.
COUNTING = """
calls, made = dict(timeweave=0, ssh_keygen=0), [0]
def counting(real):
    def call(words, *more, **settings):
        calls["ssh_keygen" if "ssh-keygen" in str(words[0]) else "timeweave"] += 1
        return real(words, *more, **settings)
    return call
subprocess.run = counting(subprocess.run)
real = os.replace
def replace(*words, **settings):
    made[0] += 1
    return real(*words, **settings)
os.replace = replace
"""
COUNTED = 'of_weft=round(used[0].ru_utime + used[0].ru_stime, 2), bytes_written=int(io["wchar"]), files_made=made[0], calls=calls'


class Maker:
    """Makes the folder of all services and boxes."""

    def __init__(self, bench: Bench):
        self.bench, self.folder, self.put = bench, Path(bench.folder), bench.put

    def read(self, name: str) -> bytes:
        """A file's bytes."""
        return (self.folder / name).read_bytes()

    def make_service(self, name: str) -> None:
        """Makes a service, and its key."""
        (self.folder / name).mkdir()
        self.bench.tell("init", name, name)
        subprocess.run(["ssh-keygen", "-q", "-t", "ed25519", "-N", "", "-C", "", "-f", self.folder / f"{name}.key"], check=True)

    def make_step(self, name: str) -> bytes:
        """Lets a service make a step; its line, signed."""
        line = self.bench.tell("append", name, self.put(f"{name}.events", events_to_bytes([name.encode()])))
        words = ["ssh-keygen", "-Y", "sign", "-q", "-n", NAMESPACE, "-f", self.folder / f"{name}.key"]
        return line + subprocess.run(words, input=line, capture_output=True, check=True).stdout

    def make_box(self, name: str, peers: Sequence[str]) -> None:
        """Makes the box of a service, which has accepted these peers."""
        self.put(f"box-{name}/box.conf", f"key = ../{name}.key\n".encode())
        keys = {peer: " ".join(self.read(f"{peer}.key.pub").decode().split()[:2]) for peer in peers}
        self.put(f"box-{name}/allowed_signers", "".join(f'{peer} namespaces="{NAMESPACE}" {key}\n' for peer, key in keys.items()).encode())
        for peer in peers:
            line = self.read(f"{peer}.line").split(b"\n")[0].decode()
            self.put(f"box-{name}/{peer}/kept/accepted", f"{line} 2026-11-29T09:40:00Z compared by a person\n".encode())

    def exchange(self, name: str, *words: str) -> Found:
        """A turn of a service; what it took."""
        return drive(self.bench, ["exchange", name, f"box-{name}", *words], COUNTING, COUNTED)[0]

    def first_line(self, name: str) -> bytes:
        """A service's line without its signature."""
        return self.read(f"{name}.line").split(b"\n")[0]

    def begin(self, names: Sequence[str]) -> None:
        """Makes the services, and their first messages for the hub."""
        for make in (self.make_service, lambda name: self.put(f"{name}.line", self.make_step(name))):
            do_many(make, ["hub", *names])
        self.put("hub.lines", self.first_line("hub") + b"\n")
        self.make_box("hub", names)
        for name in names:
            self.put(f"box-hub/{name}/in/line", self.read(f"{name}.line"))
            self.put(f"box-hub/{name}/in/message", self.bench.tell("thread", name, "0"))

    def put_out(self, names: Sequence[str]) -> None:
        """What each peer puts out in a night: what it recorded of the hub, a new step, and lines and receipts of others."""
        receipts = do_many(lambda name: self.bench.tell("receive", name, f"box-hub/{name}/out/message"), names)
        lines = dict(zip(names, do_many(self.make_step, names)))
        for place, (name, receipt) in enumerate(zip(names, receipts)):
            others = [names[(place + at) % len(names)] for at in range(1, min(MOST_SEEN, len(names) - 1) + 1)]
            own = read_receipt(receipt)
            told = [Receipt(name, own.archived, own.recorder_authenticator, f"s{at}", at, bytes(32)).to_bytes() for at in range(1, MOST_RECEIPTS)]
            self.put(f"{name}.line", lines[name])
            files = {"receipt": receipt, "line": lines[name], "message": self.bench.tell("thread", name, "1"), "yours": self.read(f"box-hub/{name}/out/line")}
            for file, data in {**files, "seen": b"".join(lines[other] for other in others), "receipts": b"".join([*told, receipt])}.items():
                self.put(f"box-hub/{name}/in/{file}", data)

    def make_peer(self, name: str, others: Sequence[str]) -> None:
        """The box of a peer, to which the hub's files were brought, and those of some others."""
        self.make_box(name, ["hub", *others])
        shutil.copytree(self.folder / f"box-hub/{name}/out", self.folder / f"box-{name}/hub/in")
        for other in others:
            self.put(f"box-{name}/{other}/in/line", self.read(f"{other}.line"))
            self.put(f"box-{name}/{other}/in/message", self.bench.tell("thread", other, "0"))
        self.put(f"{name}.lines", self.first_line(name) + b"\n")


def do_many(make: Callable[[str], object], names: Sequence[str]) -> List[object]:
    """Does the same for many services at once."""
    with ThreadPoolExecutor(os.cpu_count()) as many:
        return list(many.map(make, names))


def measure_nights(bench: Bench) -> Found:
    """The part: one hub after another."""
    rows, values = [], {}
    for count in bench.pick(PEERS, (5,)):
        maker, names = Maker(Bench(bench.program, bench.place(f"n{count}"))), [f"p{number:04}" for number in range(1, count + 1)]
        maker.begin(names)
        first = maker.exchange("hub", "--adopt-store", maker.first_line("hub").decode())
        maker.put_out(names)
        night = maker.exchange("hub")
        taken = sum(maker.read(f"box-hub/{name}/kept/taken").split()[1] != b"1" for name in names)
        maker.make_peer(names[0], names[1:PEERS_OF_ONE])
        peer = maker.exchange(names[0], "--adopt-store", maker.first_line(names[0]).decode())
        out = sum(path.stat().st_size for path in (maker.folder / "box-hub").glob("*/out/*") if path.is_file())
        stored = {"hub_store_bytes": (maker.folder / "hub/timeline.tw").stat().st_size, "hub_puts_out_bytes": out}
        values[f"of_{count}"] = {"peers": count, "taken": taken, "first": first, "night": night, "peers_of_the_peer": PEERS_OF_ONE, "peer": peer, **stored}
        cells = {"seconds": night["seconds"], "of a processor": night["processor"], "memory, in MB": night["memory_kib"] / 976.5625}
        rows.append({"peers": count, "taken": taken, **cells, "written, in MB": night["bytes_written"] / 1e6, "put out, in MB": out / 1e6, "load": load()})
        shutil.rmtree(maker.folder)
    return {"tables": {"nights": table({name: 1 if "MB" in name or "of a" in name else 0 for name in rows[0] if name != "load"}, rows)}, "values": values}
