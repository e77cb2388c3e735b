#!/usr/bin/env python3
"""A network of services that weave themselves, in earnest: each has a store and a box, records by day and runs `weft exchange` by night, over real files;
a carrier between the boxes loses, doubles, delays and damages them by a seed, and faults come by a schedule. The truth is kept beside.

    python3 tests/play_network.py PROGRAM [SERVICES [NIGHTS [SEED]]]      else 8 services, 60 nights, seed 1; --help tells more

At the end pairs of events are drawn: of each that the receipts can show `weft chain` makes the proof, `strict` accepts it, and the truth agrees; of the
others none is shown. No step that was acknowledged is lost, no honest service is accused, and each liar that somebody could have found is found. It ends
with 0 where all that is so, and tells the figures."""

import argparse
import contextlib
import json
import os
import sys
import tempfile
import time
from concurrent.futures import Executor, ProcessPoolExecutor
from pathlib import Path
from typing import Optional

from network import told
from network.plan import LEAST_NIGHTS, LEAST_SERVICES, plan_of
from network.play import FAULTY, MOST_PAIRS, Network, Ways, compare_finds, finds_of
from network.web import Web

from weft import clusters


def read_words() -> argparse.Namespace:
    """The words of the command line."""
    words = argparse.ArgumentParser(description=__doc__, formatter_class=argparse.RawDescriptionHelpFormatter)
    words.add_argument("program", metavar="PROGRAM", help="the built program")
    for name, default in (("services", 8), ("nights", 60), ("seed", 1)):
        words.add_argument(name, metavar=name.upper(), nargs="?", type=int, default=default, help=f"else {default}")
    words.add_argument("--workers", metavar="N", type=int, default=len(os.sched_getaffinity(0)), help="so many processes; else one a processor")
    words.add_argument("--dask", metavar="ADDRESS", help="over the Dask cluster whose scheduler has this address; then runs of weft aren't killed amid")
    words.add_argument("--tls", metavar=("CA", "CERT", "KEY"), nargs=3, help="with --dask: files for TLS")
    words.add_argument("--folder", metavar="FOLDER", help="an empty folder for all files, which stays; of a cluster one that its machines share")
    words.add_argument("--seconds", metavar="N", type=float, default=float("inf"), help="no night begins after so many seconds, once each part has begun; else none is left out")
    words.add_argument("--pairs", metavar="N", type=int, default=MOST_PAIRS, help=f"so many pairs of events at most; else {MOST_PAIRS:,}")
    words.add_argument("--appended", metavar="SHARE", type=float, default=0, help="to this share of the signed lines a made-up one is appended on the way; else none")
    words.add_argument("--web", action="store_true", help="over one web server on this machine, by weft publish and weft fetch, and not from folder to folder")
    words.add_argument("--cut", metavar="SHARE", type=float, default=0, help="this share of the ways is cut in a night, by a hostile server with --web; else none")
    words.add_argument("--faulty", metavar="SHARE", type=float, default=FAULTY, help=f"this share of the turns has a fault; else {FAULTY}")
    words.add_argument("--beside", action="store_true", help="with --web: plays the same over folders too, both without faults: the finds have to be the same bytes")
    words.add_argument("--write", action="store_true", help="writes the figures into bench/results.json, of which `python3 bench/page.py` makes the page")
    given = words.parse_args()
    if given.services < LEAST_SERVICES or given.nights < LEAST_NIGHTS:
        words.error(f"there are {LEAST_SERVICES} services and {LEAST_NIGHTS} nights at least, so that each has its part")
    return given


def over(words: argparse.Namespace) -> "contextlib.AbstractContextManager[Executor]":
    """The executor that the words ask for."""
    return clusters.executor(words.dask, words.tls) if words.dask else ProcessPoolExecutor(words.workers)


def play(words: argparse.Namespace, executor: Executor, place: Path, ways: Ways, pairs: int) -> tuple[list[str], told.Figures]:
    """Plays the network of the command line in a folder, and draws so many pairs of events at most; answers what was wrong, and the figures."""
    plan = plan_of(words.services, words.nights, words.seed)
    os.environ["TIMEWEAVE_PROGRAM"] = os.path.abspath(words.program)
    network = Network(place, os.path.abspath(words.program), plan, words.seed, words.nights, executor, ways)
    network.play(words.seconds, progress=sys.stderr.isatty() or words.write)
    figures = network.check(pairs)
    return network.wrong, figures


def main() -> int:
    """Plays the network of the command line."""
    words, began, before = read_words(), time.monotonic(), os.getloadavg()[0]
    faulty = 0 if words.beside else words.faulty
    with contextlib.ExitStack() as stack:
        folder: Optional[str] = words.folder or stack.enter_context(tempfile.TemporaryDirectory(prefix="network-"))
        assert folder is not None
        place = Path(folder).absolute()
        web = stack.enter_context(contextlib.closing(Web(place / "web"))) if words.web else None
        executor = stack.enter_context(over(words))
        wrong, figures = play(words, executor, place, Ways(words.appended, words.cut, faulty, web), words.pairs)
        if words.beside:
            (place / "beside").mkdir()
            # (all steps are the same where the finds are, and so are the orders)
            also_wrong, _ = play(words, executor, place / "beside", Ways(words.appended, words.cut, faulty, keys=place), pairs=0)
            wrong += [f"over folders: {it}" for it in also_wrong] + compare_finds(finds_of(place), finds_of(place / "beside"))
    print(json.dumps({**figures.as_json(), "seconds": round(time.monotonic() - began, 1)}))
    print("\n".join(wrong) or "all as it has to be")
    if words.write and not wrong:
        told.write_part(figures, sys.argv[2:], tempfile.gettempdir(), before)
    return 1 if wrong else 0


if __name__ == "__main__":
    sys.exit(main())
