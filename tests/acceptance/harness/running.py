"""How a case is run. A case is a dictionary with

    name       what it shows
    words      the program's arguments; $AUTH is the authenticator of step 1 of the least proof
    files      files and folders of the folder that it runs in, by name; for their recipes see `made`
    status     the exit status
    stdout     the bytes of standard output, as text; none where the output goes to no file that can be read
    bytes      in place of stdout, the bytes of standard output as a recipe
    to         where standard output goes: "full" (a device that is full), "closed", "unread" (a pipe that nobody
               reads), "short" (a file that takes five bytes), or a pipe (the default)
    memory     at most so many bytes of memory
    check      in place of all these, a function that runs the program, whose path it gets, and answers what was wrong, or None
"""

import contextlib
import os
import resource
import shlex
import signal
import subprocess
import tempfile
from pathlib import Path

from harness import library, seen, web
from harness.judged import Asked
from harness.making import HEX, LEAST, proof_bytes
from harness.places import LONGEST
from harness.samples import counted_timeline


def made(recipe):
    """The bytes of a file, or None for a folder.

    "least"            the least proof
    "folder"           a folder
    {"hex": H}         these bytes
    {"text": T}        these bytes, as text
    {"from": RECIPE}   another recipe's bytes; then "edits" [[place, hex], ..] puts bytes over its own, "cut" keeps so
                       many of the first bytes, and "pad" appends so many zeros
    {"proof": ..}      a proof of a timeline "name" whose step i has counts[i - 1] events; event k of step i is the text
                       `i.k`. Its event is that of "step" and "index", its top is "top"
    """
    if recipe == "least":
        return LEAST
    if recipe == "folder":
        return None
    if isinstance(recipe, bytes):
        return recipe
    if "hex" in recipe:
        return bytes.fromhex(recipe["hex"])
    if "text" in recipe:
        return recipe["text"].encode()
    if "proof" in recipe:
        wanted = recipe["proof"]
        line = counted_timeline(wanted["name"], wanted["counts"])
        return proof_bytes(line, wanted["step"], wanted["index"], wanted["top"])
    data = bytearray(made(recipe["from"]))
    for place, text in recipe.get("edits", []):
        new = bytes.fromhex(text)
        data[place : place + len(new)] = new
    return bytes(data[: recipe.get("cut", len(data))]) + bytes(recipe.get("pad", 0))


def limits(case):
    """What the child does before it runs the program."""

    def limit():
        if "memory" in case:
            resource.setrlimit(resource.RLIMIT_AS, (case["memory"], case["memory"]))
        if case.get("to") == "closed":
            os.close(1)
        if case.get("to") == "short":
            # (without this the system would end the program)
            signal.signal(signal.SIGXFSZ, signal.SIG_IGN)
            resource.setrlimit(resource.RLIMIT_FSIZE, (5, 5))

    return limit if "memory" in case or case.get("to") in ("closed", "short") else None


def ran(program, words, case, room):
    """Runs the program; answers its status, and what it wrote to standard output and to standard error."""
    to = {"full": "/dev/full", "short": f"{room}/standard output"}.get(case.get("to"))
    if case.get("to") == "unread":
        reader, to = os.pipe()
        os.close(reader)
    with open(to, "wb" if case["to"] == "unread" else "w+b") if to else contextlib.nullcontext(subprocess.PIPE) as out:
        done = subprocess.run(
            [program, *words], cwd=room, stdout=out, stderr=subprocess.PIPE, stdin=subprocess.DEVNULL,
            preexec_fn=limits(case), timeout=LONGEST,
        )
        if case.get("to") == "short":
            out.seek(0)
            return done.returncode, out.read(), done.stderr
    return done.returncode, done.stdout or b"", done.stderr


def wanted_output(case):
    """The bytes of standard output."""
    return made(case["bytes"]) if isinstance(case, Asked) or "bytes" in case else case.get("stdout", "").encode()


def difference(program, case):
    """Runs the case in a folder of its own; answers what was wrong, or None."""
    if "check" in case:
        return case["check"](program)
    with tempfile.TemporaryDirectory() as room:
        contents = {name: made(recipe) for name, recipe in case.get("files", {}).items()}
        for name, data in contents.items():
            if data is None:
                (Path(room) / name).mkdir()
            else:
                (Path(room) / name).write_bytes(data)
        words = [word.replace("$AUTH", HEX) for word in case["words"]]
        try:
            status, out, err = ran(program, words, case, room)
        except subprocess.TimeoutExpired:
            return f"  it ran for longer than {LONGEST} seconds"
    seen.note(status, out)
    by_library = library.difference(words, contents, status, out) or web.difference(words, contents, status, out)
    wanted_status, wanted = case["status"], wanted_output(case)
    command = " ".join(shlex.quote(word) for word in ["timeweave", *words])
    if (status, out, err) == (wanted_status, wanted, b""):
        return by_library and f"  {command}\n{by_library}"
    return f"  {command}\n  wanted {wanted_status} {wanted!r}\n  got    {status} {out!r}" + (f"\n  stderr {err!r}" if err else "")
