"""Cases of the library for C and Python, which come once the others have run."""

import os
import re
import shutil
import subprocess
import sys
from concurrent.futures import ThreadPoolExecutor
from functools import cache
from itertools import islice
from pathlib import Path

import timeweave
from example_files import bounds, high_of, low_of, two_histories

from cases import archives, data, forks, generated, maps, precedence, reaching
from cases.contradictions import CASE_SEED
from harness.asked_pairs import row_of_pair
from harness.drawn_pairs import drawn_recipe, pair_of
from harness.library import ARCHIVE, SHARED, asked_of, built_library, checked_run, chosen, judge, row_difference, row_of, wanted_version
from harness.making import HEX, proof_bytes
from harness.places import HARNESS, LONGEST, TOP
from harness.rooms import Skipped, Wrong, case, needs
from harness.running import made, wanted_output
from harness.samples import anchors_of, exchange, sample_fork
from harness.ways import as_way, with_carried
from timeweave_reference.anchors import anchors_to_bytes
from timeweave_reference.timelines import Timeline

# How many threads call it at once.
THREADS = 4

# What the library may call, and what its archive defines of the allocator's edge.
CALLED = {"malloc", "realloc", "free", "memcpy", "memmove", "memset", "memcmp", "_GLOBAL_OFFSET_TABLE_"}


# The modules of whose cases some are asked of the library by threads, by C, and of the page's module: at most so many of each, and so many pairs; and their largest file.
SAMPLED, MOST_OF_ONE, PAIRS, LARGEST = (data, archives, precedence, forks, maps, reaching, generated), 1500, 500, 20_000


# ---- what is asked beside the program


@cache
def sampled():
    """What the library is asked of cases, and what it has to answer by the reference: the same rows whatever else this run tries."""
    rows = []
    for module in SAMPLED:
        for one in islice((one for one in module.cases() if asked_of(one.get("words", []), {})[0]), MOST_OF_ONE):
            contents = {name: made(recipe) for name, recipe in one.get("files", {}).items()}
            rows.append(row_of([word.replace("$AUTH", HEX) for word in one["words"]], contents, one["status"], wanted_output(one)))
    rows += [row_of_pair(pair) for number in range(PAIRS) if (pair := pair_of(drawn_recipe(CASE_SEED, number)))]
    return [row for row in rows if row and max(map(len, (*row[2], row[3]))) <= LARGEST]


# ---- in C


def calls(compiler):
    def work(room):
        built_library()
        command, program = needs(compiler, compiler), str(room.folder / "calls")
        room.put("proofs", chosen(sampled()))
        flags = ["-std=c11", "-O1", "-g", "-Wall", "-Wextra", "-Werror", "-fsanitize=address,undefined", "-fno-sanitize-recover=all"]
        wrapped = ["-Wl,--wrap=malloc", "-Wl,--wrap=realloc", "-pthread"]
        checked_run([command, *flags, "-I", TOP / "include", "-o", program, HARNESS / "library_calls.c", ARCHIVE, *wrapped])
        checked_run([program, room.folder / "proofs", wanted_version()])

    work.__doc__ = f"calls in C by {compiler}, under its sanitizers"
    return work


def races(room):
    """calls from four threads at once, under clang's sanitizer of threads: no two of them touch one thing unordered"""
    built_library()
    clang, program = needs("clang", "clang"), str(room.folder / "calls")
    room.put("proofs", chosen(sampled()))
    flags = ["-std=c11", "-O1", "-g", "-Wall", "-Wextra", "-Werror", "-fsanitize=thread", "-Wl,--wrap=malloc", "-Wl,--wrap=realloc", "-pthread"]
    linked = subprocess.run([clang, *flags, "-I", TOP / "include", "-o", program, HARNESS / "library_calls.c", ARCHIVE], capture_output=True, text=True)
    if "libclang_rt.tsan" in linked.stderr:
        raise Skipped("there is no sanitizer of threads for clang (Debian: libclang-rt-14-dev)")
    checked_run([needs("setarch", "util-linux"), "--addr-no-randomize", program, room.folder / "proofs", wanted_version()], env=os.environ | {"TSAN_OPTIONS": "halt_on_error=1"})


def in_threads(room):
    """four threads at once that judge small proofs, maps and evidence by the module for Python: each is told what one thread is"""
    built_library()
    rows = sampled()

    def judge_all(first):
        # (each begins at another row)
        found = {place: judge(rows[place][0], rows[place][2]) for place in [*range(first, len(rows)), *range(first)]}
        return [found[place] for place in range(len(rows))]

    with ThreadPoolExecutor(THREADS) as pool:
        told = list(pool.map(judge_all, (len(rows) * number // THREADS for number in range(THREADS))))
    wrong = [place for found in told for place, answer in enumerate(found) if answer != (rows[place][1], rows[place][3])]
    if wrong:
        raise Wrong(f"  of {len(rows)} questions {len(wrong)} are answered otherwise in {THREADS} threads, number {wrong[0]} first")


def no_state(room):
    """the library has no variable: nothing in it can be written that outlives a call"""
    built_library()
    nm = needs("nm", "binutils")
    listed = [line.split() for line in checked_run([nm, ARCHIVE]).splitlines()]
    variables = {words[2] for words in listed if len(words) == 3 and words[1] in "dDbBC"}
    # (the kit's allocator answers the address of `nothing` where there is no memory, and neither reads nor writes it)
    if variables - {"nothing"} or not listed:
        raise Wrong(f"  variables: {sorted(variables)}")


def symbols(room):
    """the library reaches no more C functions than the allocator, and shows no more than its header"""
    built_library()
    nm = needs("nm", "binutils")
    listed = lambda *words: {line.split()[-1] for line in checked_run([nm, *words]).splitlines() if " " in line.strip()}  # noqa: E731
    beyond = listed("--undefined-only", ARCHIVE) - listed("--defined-only", ARCHIVE) - CALLED
    shown = {name.partition("@")[0] for name in listed("-D", "--defined-only", SHARED)}
    declared = set(re.findall(r"^\w+ (timeweave_\w+)\(", (TOP / "include/timeweave.h").read_text(), re.M))
    if beyond or shown != declared:
        raise Wrong(f"  calls beyond the allocator: {sorted(beyond)}\n  shown {sorted(shown)}\n  declared {sorted(declared)}")


def loose(room, environment):
    """The example for Python takes no chain with a thread that no anchor binds."""
    way = as_way(two_histories()[1])
    room.put("p", with_carried(way, {0}).to_bytes())
    room.put("k", "".join(f"{name} {step} {auth.hex()}\n" for name, (step, auth) in way.anchors().items()).encode())
    done = subprocess.run([sys.executable, TOP / "examples/verify.py", "p", "k"], cwd=room.folder, env=environment, capture_output=True, text=True, timeout=LONGEST)
    if (done.returncode, done.stdout[:22]) != (1, "rejected for reason 8,"):
        raise Wrong(f"  of a chain with a carried thread verify.py says {done}")


def installed(room):
    """what is installed serves a program in C and a script in Python"""
    built_library()
    compiler, pkg_config = needs("cc", "gcc"), needs("pkg-config", "pkg-config")
    environment = {name: value for name, value in os.environ.items() if not name.startswith(("MAKE", "MFLAGS", "DESTDIR"))}
    prefix, program = room.folder / "there", str(room.folder / "many")
    checked_run(["make", "-s", "install-lib", f"PREFIX={prefix}"], cwd=TOP, env=environment)
    environment["PKG_CONFIG_PATH"] = str(prefix / "lib/pkgconfig")
    version = checked_run([pkg_config, "--modversion", "timeweave"], env=environment)
    flags = checked_run([pkg_config, "--cflags", "--libs", "timeweave"], env=environment).split()
    checked_run([compiler, "-O2", "-o", program, TOP / "examples/many_proofs.c", *flags])
    line = Timeline("a", [[b"milk"]])
    room.put("p", proof_bytes(line, 1, 0, 1))
    room.put("k", f"a 1 {line.auths[1].hex()}\n".encode())
    environment["LD_LIBRARY_PATH"] = str(prefix / "lib")
    told = checked_run([program, "p", "k", "1000"], cwd=room.folder, env=environment)
    environment["TIMEWEAVE_LIBRARY"] = str(prefix / "lib/libtimeweave.so")
    said = checked_run([sys.executable, TOP / "examples/verify.py", "p", "k"], cwd=room.folder, env=environment)
    loose(room, environment)
    if version.strip() != wanted_version() or not told.startswith("1000 of 1000 accepted") or said != "service a recorded b'milk' at step 1\n":
        raise Wrong(f"  version {version!r}\n  many_proofs.c: {told!r}\n  verify.py: {said!r}")


def raised(proof, anchors):
    """What the module for Python raises for a proof, or the report."""
    try:
        return timeweave.verify(proof, anchors)
    except (timeweave.Rejected, timeweave.BadAnchors) as reason:
        return type(reason).__name__, vars(reason)


def types(room):
    """the module for Python has no fault in its types, for Python 3.9"""
    checked_run([needs("mypy", "mypy"), "--strict", "--python-version", "3.9", "--cache-dir", room.folder / "cache", *sorted((TOP / "bindings/python").glob("*.py"))])


def maps_and_forks():
    """The module for Python gives the bounds of map files and the threads of a fork, and tells which file isn't what it has to be."""
    own, peer = exchange()
    low, high, anchors = low_of(own, 5, "bank", 9), high_of(peer, 10, "mill", 5), anchors_to_bytes(anchors_of((own, 9), (peer, 10)))
    found, wanted = timeweave.checkmap(low, high, anchors), bounds(own, 5, peer, 10)
    if (found.low, found.high, found.upto) != (*wanted, 10):
        raise Wrong(f"  of map files the module for Python gives {found}, and {wanted} is wanted")
    fork = sample_fork()
    shown = timeweave.checkfork(fork.evidence().to_bytes(), anchors_to_bytes(fork.anchors()))
    if (shown.first.thread.step, shown.second.thread.step) != (fork.k, fork.m):
        raise Wrong(f"  of a fork it gives {shown}")
    for files, error in (((low, low, anchors), "high byte 4"), ((low, high, b"x"), "line 1")):
        try:
            raise Wrong(f"  of bad files it gives {timeweave.checkmap(*files)}")
        except (timeweave.BadFile, timeweave.BadAnchors) as bad:
            if str(bad) != error:
                raise Wrong(f"  of bad files it raises {bad!r}, and {error} is wanted") from bad


def module(room):
    """the module for Python gives the report, raises the reason, and gives the version"""
    built_library()
    line = Timeline("a", [[b"milk"]])
    proof, anchors = proof_bytes(line, 1, 0, 1), f"a 1 {line.auths[1].hex()}\n"
    event = timeweave.Event("a", 1, 0, b"milk")
    for given, wanted in (
        ((proof, anchors), timeweave.Report("exists", f"accepted exists\nevent a 1 0 {b'milk'.hex()}\n", [event])),
        ((bytearray(proof), anchors.encode()), timeweave.Report("exists", f"accepted exists\nevent a 1 0 {b'milk'.hex()}\n", [event])),
        ((proof.replace(b"milk", b"beer"), anchors), ("Rejected", {"number": 6, "name": "BadEvent", "fields": ["0"]})),
        ((proof, anchors + "a 1"), ("BadAnchors", {"line": 2, "file": "anchors"})),
    ):
        if raised(*given) != wanted:
            raise Wrong(f"  wanted {wanted}\n  got    {raised(*given)}")
    maps_and_forks()
    if timeweave.version() != wanted_version():
        raise Wrong(f"  the version is {timeweave.version()}")


def copied_alone(room):
    """the module for Python loads no library that lies around a copy of it, in whatever folder, and one that is of its repository or installation"""
    copy = TOP / "bindings/python/timeweave.py"
    environment = {name: value for name, value in os.environ.items() if name != "TIMEWEAVE_LIBRARY"}
    (room.folder / "lib").mkdir()
    room.put("lib/libtimeweave.so", b"somebody else's")
    # (of each folder whether its library is the one above it)
    for below, mark, is_its_own in (
        ("home/app", None, False), ("bindings/python", None, False), ("bindings/python", "crates.txt", True),
        ("share/timeweave", None, False), ("share/timeweave", "share/timeweave/weft/__init__.py", True),
    ):  # fmt: skip
        folder = room.folder / below
        folder.mkdir(parents=True, exist_ok=True)
        shutil.copy(copy, folder)
        if mark:
            (room.folder / mark).parent.mkdir(parents=True, exist_ok=True)
            room.put(mark, b"")
        words = [sys.executable, "-c", "import timeweave; timeweave.version()"]
        done = subprocess.run(words, cwd=folder, env=environment, capture_output=True, text=True, timeout=LONGEST)
        if ("invalid ELF header" in done.stderr or "file too short" in done.stderr) != is_its_own:
            raise Wrong(f"  in {below} with {mark}: {done}")
    for folder in ("/", "/t", "/t/u"):
        if timeweave.library_of(Path(folder)) is not None:
            raise Wrong(f"  {folder} has a library")


def each_proof(room):
    """each small proof, map and evidence of other cases, by the library"""
    built_library()
    wrong = next(filter(None, map(row_difference, sampled())), None)
    if wrong:
        raise Wrong(wrong)


def cases():
    for work in (each_proof, calls("gcc"), calls("clang"), races, in_threads, no_state, symbols, installed, types, module, copied_alone):
        yield case(work, "library")
