"""Weft in a process of its own, which tells what it took: for the figures of large logs, of nights with many peers, and of each word."""

import json
import re
import subprocess
import sys
from typing import Any, Sequence, Tuple

from measuring import Bench, Found

# What is counted stands before weft runs, and what of it is told behind it.
DRIVER = """
import json, os, resource, subprocess, sys, time
from weft import stores
from weft.main import main
{counting}
began = time.monotonic()
status = main(sys.argv[1:])
seconds = time.monotonic() - began
io = dict(line.split(": ") for line in open("/proc/self/io").read().splitlines())
most = next(int(line.split()[1]) for line in open("/proc/self/status") if line.startswith("VmHWM"))
used = [resource.getrusage(who) for who in (resource.RUSAGE_SELF, resource.RUSAGE_CHILDREN)]
told = dict(status=int(status), seconds=round(seconds, 2), processor=round(sum(it.ru_utime + it.ru_stime for it in used), 2), memory_kib=most, **dict({told}))
print("TOLD" + json.dumps(told), file=sys.stderr)
sys.exit(status)
"""


def drive(bench: Bench, words: Sequence[Any], counting: str = "", told: str = "", before: Sequence[str] = (), good: Sequence[int] = (0, 10)) -> Tuple[Found, str]:
    """Runs weft with these words in the folder of the measure; what it took, and what it wrote."""
    command = [*before, sys.executable, "-c", DRIVER.format(counting=counting, told=told), *map(str, words)]
    done = subprocess.run(command, cwd=bench.folder, env=bench.environment, capture_output=True, text=True)
    found = re.search(r"^TOLD(.*)$", done.stderr, re.M)
    if found is None or done.returncode not in good:
        raise SystemExit(f"weft {' '.join(map(str, words))}: {done.returncode} {done.stdout[-2000:]} {done.stderr[-2000:]}")
    return json.loads(found[1]), done.stdout
