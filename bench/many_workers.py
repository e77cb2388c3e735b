"""How long `weft judge --many` takes for many histories over 1, 2 and 4 processes, and over a Dask cluster of three workers on this machine, one of which is killed
amid. For the cluster it needs Debian's python3-distributed, and leaves it out where that isn't there."""

import hashlib
import os
import resource
import shutil
import subprocess
import sys
import time
from pathlib import Path
from typing import List, Optional

from measuring import Bench, Found, load, table

from timeweave_reference.services import service_of

WORKERS, OF_CLUSTER, LONGEST = (1, 2, 4), 3, 7_200


def make_histories(folder: Path, count: int, steps: int) -> None:
    """Makes histories, and keeps the line of each one's last step."""
    (folder / "many").mkdir()
    lines = []
    for number in range(count):
        service = service_of(f"s{number}", [[f"step {step} of {number}".encode()] for step in range(steps)])
        (folder / f"many/s{number}").write_bytes(service.history())
        lines.append(service.anchor(steps))
    (folder / "kept").write_bytes(b"".join(lines))


def words_for(python: str, table: str, *more: str) -> List[str]:
    """The words that judge all histories."""
    return [python, "-m", "weft", "judge", "--many", "many", "--kept", "kept", "--table", table, *more]


def judge_by_processes(bench: Bench, workers: int) -> Found:
    """A run over so many processes."""
    before, began = resource.getrusage(resource.RUSAGE_CHILDREN), time.monotonic()
    words = words_for(sys.executable, f"t{workers}", "--workers", str(workers))
    subprocess.run(words, cwd=bench.folder, env=bench.environment, check=True, capture_output=True, timeout=LONGEST)
    took, after = time.monotonic() - began, resource.getrusage(resource.RUSAGE_CHILDREN)
    return {"over": f"{workers} processes", "seconds": took, "seconds of processors": after.ru_utime + after.ru_stime - before.ru_utime - before.ru_stime}


def judge_by_cluster(bench: Bench, python: str, is_killed: bool) -> Found:
    """A run over a Dask cluster; one of its workers is killed once a third of the rows is there. (Of processors nothing is told.)"""
    folder, env, port = Path(bench.folder), bench.environment, str(20_000 + os.getpid() % 20_000)
    own_rows(folder).unlink(missing_ok=True)
    words = [python, "-m", "distributed.cli.dask_scheduler", "--no-dashboard", "--host", "127.0.0.1", "--port", port]
    running = [subprocess.Popen(words, cwd=folder, env=env, stderr=subprocess.DEVNULL)]
    try:
        worker = [python, "-m", "distributed.cli.dask_worker", f"tcp://127.0.0.1:{port}", "--no-dashboard", "--no-nanny", "--nthreads", "1"]
        running += [subprocess.Popen(worker, cwd=folder, env=env, stderr=subprocess.DEVNULL) for _ in range(OF_CLUSTER)]
        time.sleep(10)  # (until all have come)
        began, part = time.monotonic(), own_rows(folder)
        judge = subprocess.Popen(words_for(python, "tc", "--dask", f"tcp://127.0.0.1:{port}"), cwd=folder, env=env, stdout=subprocess.DEVNULL)
        wanted = len(os.listdir(folder / "many")) // 3
        while is_killed and judge.poll() is None and not (part.exists() and part.read_bytes().count(b"\n") > wanted):
            time.sleep(0.02)
        if is_killed:
            running[-1].kill()
        assert judge.wait(LONGEST) == 0, "all are shown"
        told = "the same, one worker killed" if is_killed else "a Dask cluster of three workers"
        return {"over": told, "seconds": time.monotonic() - began, "seconds of processors": "not measured"}
    finally:
        for it in running:
            it.kill()
            it.wait()


def own_rows(folder: Path) -> Path:
    """The file among the user's own in which the rows of the cluster's table are kept while it is made, and behind that."""
    return folder / ".local/share/weft/judged" / f"{hashlib.sha256(os.fsencode(folder / 'tc')).hexdigest()}.rows"


def expect_once(table: Path, count: int) -> None:
    """A table has each history once, as shown."""
    rows = [line.split("\t") for line in table.read_text().splitlines()[2:]]
    assert sorted(row[0] for row in rows) == sorted(f"s{number}" for number in range(count)) and all(row[3] == "shown" for row in rows), table


def python_with_cluster() -> Optional[str]:
    """A Python that has the package of Dask."""
    found = [path for path in (sys.executable, "/usr/bin/python3") if shutil.which(path)]
    return next((path for path in found if subprocess.run([path, "-c", "import distributed"], capture_output=True).returncode == 0), None)


def measure_many(bench: Bench) -> Found:
    """The part."""
    count, steps, python = bench.pick(2_000, 20), bench.pick(40, 3), python_with_cluster()
    make_histories(Path(bench.folder), count, steps)
    rows = []
    for workers in WORKERS:
        rows.append({**judge_by_processes(bench, workers), "load": load()})
        expect_once(Path(bench.folder, f"t{workers}"), count)
    for is_killed in (False, True) if python and not bench.is_trial else ():
        rows.append({**judge_by_cluster(bench, python or "", is_killed), "load": load()})
        expect_once(Path(bench.folder, "tc"), count)
    return {"tables": {"many": table({"over": 0, "seconds": 1, "seconds of processors": 1}, rows)}, "values": {"histories": count, "steps": steps}}
