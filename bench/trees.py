"""An archive's tree in pages, by the built program `tree_pages`: what inserts and reads cost, beside the SHA-256 of the pages alone, and beside what LMDB writes for
the same keys, where Python has the module `lmdb`."""

import random
import subprocess
import tempfile
from pathlib import Path
from typing import List, Optional, Sequence

from measuring import Bench, Found, cost_of
from instructions import count_instructions

try:
    import lmdb
except ImportError:
    lmdb = None

PAGE, FIRST = 4096, 4


def draw_numbers(count: int) -> List[int]:
    """Numbers of entries, drawn by chance."""
    return random.Random("an archive's tree").sample(range(1, 2**40), count)


def lines_of(command: str, numbers: Sequence[int]) -> bytes:
    """The lines with this command and these numbers."""
    return "".join(f"{command} {number}\n" for number in numbers).encode()


def program_of(bench: Bench) -> Path:
    """The program of trees, which lies beside the one that is measured."""
    return Path(bench.program).with_name("tree_pages")


def spend(bench: Bench, text: bytes, runs: int) -> float:
    """The least processor time of runs on these lines."""
    words = ["/bin/sh", "-c", f"exec {program_of(bench)} <{bench.put('input', text)}"]
    return min(cost_of(words, bench.folder)[0] for _ in range(runs))


def print_lines(bench: Bench, text: bytes) -> List[List[str]]:
    """What is printed on these lines, each as its words."""
    return [line.split() for line in subprocess.run([program_of(bench)], input=text, check=True, capture_output=True).stdout.decode().splitlines()]


def pages_staged(bench: Bench, numbers: Sequence[int]) -> List[int]:
    """How many pages each insert stages."""
    used = [FIRST, *(int(words[2]) for words in print_lines(bench, b"".join(lines_of("insert", [number]) + b"root\n" for number in numbers)))]
    return [after - before for before, after in zip(used, used[1:])]


def written_by_lmdb(numbers: Sequence[int]) -> Optional[int]:
    """How many bytes LMDB writes for the same keys, each in a transaction of its own: the key of 24 bytes, and 40 bytes beside it."""
    if lmdb is None:
        return None

    def written() -> int:
        return int(Path("/proc/self/io").read_text().split("wchar: ")[1].split()[0])

    with tempfile.TemporaryDirectory() as folder, lmdb.open(folder, map_size=2**36, sync=False) as database:
        before = written()
        for number in numbers:
            key = f"p{number % 7}".encode().ljust(16, b"\0") + number.to_bytes(8, "big")
            with database.begin(write=True) as transaction:
                transaction.put(key, bytes(40))
        return written() - before


def measure_trees(bench: Bench) -> Found:
    """The part."""
    if not program_of(bench).exists():
        return {"values": {}}
    numbers, runs = draw_numbers(bench.pick(10_000, 1_000)), bench.pick(5, 1)
    inserts, staged, count = lines_of("insert", numbers), pages_staged(bench, numbers), len(numbers)
    took = spend(bench, inserts, runs)
    found = {"inserts": count, "pages": sum(staged) / count, "most_pages": max(staged), "insert_us": took / count * 1e6}
    found["hash_us"] = (spend(bench, inserts + b"pages\n", runs) - took) / count * 1e6
    counted = count_instructions([str(program_of(bench))], bench.folder, inserts)
    if counted:
        found["ratio"] = counted.total / (counted.inside * (PAGE // 64 * sum(staged)) // counted.blocks)
    written = written_by_lmdb(numbers)
    found["lmdb_pages"] = written / count / PAGE if written else None
    numbers = draw_numbers(bench.pick(100_000, 1_000))
    inserts, gets = lines_of("insert", numbers), lines_of("get", numbers)
    found.update(entries=len(numbers), get_us=(spend(bench, inserts + gets, runs) - spend(bench, inserts, runs)) / len(numbers) * 1e6)
    found["get_pages"] = sum(int(words[1]) for words in print_lines(bench, inserts + gets)) / len(numbers)
    return {"values": found}
