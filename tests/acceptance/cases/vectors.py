"""The vectors, by which whoever writes a verifier tries it: each of a command is a case of the program, and so of the library and of the module of WebAssembly. They are those
that tools/vectors.py makes, keep their schema, have each reason and rule, and their texts are of the grammar that docs/verifier.md tells. The authenticators of
their histories are those under which the program accepts what it shows."""

import json
import re
import subprocess
import sys

from vector import FUNCTIONS

from harness import seen
from harness.places import LONGEST, TOP
from harness.rooms import Skipped, Wrong, case, checked, needs
from timeweave_reference import broken_rules
from timeweave_reference.histories import history_to_bytes, read_history
from timeweave_reference.paths import greedy_steps

FOLDER = TOP / "vectors"
RULES = range(1, 8)


def files():
    """The files of vectors by their names, each as its JSON is read."""
    return {path.stem: json.loads(path.read_text()) for path in sorted(FOLDER.glob("*.json")) if path.stem != "schema"}


def vectors():
    """Each vector, with the name of its file."""
    for name, read in files().items():
        for vector in read.get("vectors", ()):
            yield name, vector


def as_case(name, vector):
    """The case of the program that a vector is."""
    recipes = {file: {"hex": digits} for file, digits in vector["files"].items()}
    output = {"stdout": vector["text"]} if "text" in vector else {"bytes": {"hex": vector["bytes"]}}
    return {"name": f"{name}: {vector['name']}", "words": vector["words"], "files": recipes, "status": vector["status"], **output}


# ---- the files


def as_made(program):
    """The files that aren't those which tools/vectors.py makes."""
    ran = subprocess.run([sys.executable, TOP / "tools/vectors.py", "--check"], capture_output=True, text=True, timeout=LONGEST)
    return f"{ran.stdout}{ran.stderr}" if ran.returncode else None


def in_schema(room):
    """each file keeps the schema"""
    try:
        import jsonschema
    except ImportError as missing:
        raise Skipped("there is no jsonschema (Debian: python3-jsonschema)") from missing
    schema = json.loads((FOLDER / "schema.json").read_text())
    jsonschema.Draft202012Validator.check_schema(schema)
    checker = jsonschema.Draft202012Validator(schema)
    wrong = [f"  {name}.json: {fault.json_path}: {fault.message[:200]}" for name, read in files().items() for fault in checker.iter_errors(read)]
    if wrong:
        raise Wrong("\n".join(wrong))


def compare_readme(program):
    """The files that vectors/README.md doesn't name or that aren't there, reasons and rules that no vector has, and few or large vectors."""
    named = set(re.findall(r"`(\w+)\.json`", (FOLDER / "README.md").read_text()))
    wrong = [f"  vectors/README.md and the folder differ in {name}" for name in sorted(named ^ set(files()))]
    texts = [vector.get("text", "") for _, vector in vectors()]
    for reason in seen.reasons():
        if not any(re.match(seen.pattern(f"rejected {reason}") + "\n", text) for text in texts):
            wrong.append(f"  no vector is told {reason}")
    wrong += [f"  no vector breaks rule {rule}" for rule in RULES if not any(text.startswith("unsound ") and text.endswith(f" rule {rule}\n") for text in texts)]
    shown = [f"rule {number} {rule.word}\n" for number, rule in enumerate(broken_rules.RULES, 1) if number > 1]
    wrong += [f"  no vector shows {line.strip()} broken" for line in shown if not any(line in text for text in texts)]
    size = sum(path.stat().st_size for path in FOLDER.iterdir())
    wrong += [f"  {len(texts)} vectors of {size} bytes"] * (len(texts) < 300 or size > 3_000_000)
    return "\n".join(wrong) or None


# ---- the grammar of texts


def grammar():
    """The rules of the grammar in docs/verifier.md, each as a pattern; no rule is of itself."""
    text = re.search(r"```ebnf\n(.*?)```", (TOP / "docs/verifier.md").read_text(), re.S)[1]
    rules = dict(re.findall(r"^(\w+) *= (.*?) *;$", text, re.M | re.S))
    found = {}

    def pattern(rule):
        if rule not in found:
            parts = re.findall(r'"[^"]*"|\?[^?]*\?|\w+|[()\[\]{}|]', rules[rule])
            found[rule] = "".join(map(part, parts))
        return f"(?:{found[rule]})"

    def part(word):
        signs = {"(": "(?:", ")": ")", "[": "(?:", "]": ")?", "{": "(?:", "}": ")*", "|": "|"}
        if word in signs:
            return signs[word]
        if word.startswith("?"):
            return f"(?:{word.strip('? ')})"
        return re.escape(word[1:-1]) if word.startswith('"') else pattern(word)

    return {rule: re.compile(pattern(rule)) for rule in rules}


def in_grammar(program):
    """The texts of vectors that the grammar in docs/verifier.md doesn't have."""
    answer = grammar()["answer"]
    wrong = [f"  {name}: {vector['name']}: {vector['text'][:120]!r}" for name, vector in vectors() if "text" in vector and not answer.fullmatch(vector["text"])]
    # (a grammar that has any text would tell nothing)
    others = ("accepted exists\n", "accepted link\nevent a 1 0 -\n", "rejected 3 NotHeld a\n", "rejected 9\n", "", "stands\n", "accepted map\nlow 0\n")
    loose = [text for text in others if answer.fullmatch(text)]
    return "\n".join(wrong + [f"  the grammar has {text!r}" for text in loose]) or None


# ---- steps


def authenticators(room):
    """each authenticator from a history's first event on is that under which the program accepts what it shows of the steps up to there"""
    for row in files()["steps"]["histories"]:
        name, steps = read_history(bytes.fromhex(row["history"]))
        first = next(number for number, step in enumerate(steps, 1) if step.events)
        for last in range(first, len(steps) + 1):
            room.put("h", history_to_bytes(name, steps[:last]))
            status, proof, _ = room.run("show", "h", str(first), "0")
            room.put("p", proof)
            found = room.run("verify", "p", name, str(last), row["authenticators"][last])
            if status or found[0]:
                raise Wrong(f"  step {last} of {name}: {status}, {found}")
        if len(row["authenticators"]) != len(steps) + 1 or not len(row["datums"]) == len(row["archives"]) == len(steps):
            raise Wrong(f"  {name} has {len(steps)} steps")


def paths(program):
    """The paths that aren't the greedy ones."""
    return "\n".join(f"  {row}" for row in files()["steps"]["paths"] if row["steps"] != greedy_steps(row["top"], row["step"])) or None


# ---- a verifier written from the documents


def in_perl(room):
    """the verifier in Perl answers each vector of a proof so, as often as verifier.md tells"""
    perl = needs("perl", "perl")
    if subprocess.run([perl, "-MDigest::SHA", "-MJSON::PP", "-e1"], stderr=subprocess.DEVNULL).returncode:
        raise Skipped("there are no Digest::SHA and JSON::PP (Debian: perl)")
    folder = TOP / "examples/verifier_in_perl"
    command, wanted = re.search(r"\$ (perl try_vectors\.pl .*)\n +(.*\n)", (TOP / "docs/verifier.md").read_text()).groups()
    told_of = subprocess.run(["sh", "-c", command], cwd=folder, capture_output=True, text=True, timeout=LONGEST)
    if (told_of.returncode, told_of.stdout, told_of.stderr) != (0, wanted, ""):
        raise Wrong(f"  verifier.md tells {wanted!r}\n  {told_of}")
    for kind, number in (("event", 0), ("link", 3), ("anchors", 5), ("precedes", 4), ("precedes", 3)):
        vector = files()[kind]["vectors"][number]
        for name, digits in vector["files"].items():
            room.put(name, bytes.fromhex(digits))
        form = ["strict"] * (vector["words"][0] == "strict")
        done = subprocess.run([perl, folder / "judge.pl", "proof", "anchors", *form], cwd=room.folder, capture_output=True, text=True, timeout=LONGEST)
        if (done.returncode, done.stdout) != (vector["status"], vector["text"]):
            raise Wrong(f"  judge.pl of {kind}, {vector['name']}: {done}")


def without_program():
    """The cases that need no built program."""
    checks = {
        "as they are made": as_made,
        "what they have": compare_readme,
        "the grammar of texts": in_grammar,
        "greedy paths": paths,
    }
    yield from checked("vectors", checks)
    yield case(in_schema, "vectors")
    yield case(in_perl, "vectors")


def cases():
    for name, vector in vectors():
        # (which rules files show broken is told by the library alone)
        if vector["words"][0] not in FUNCTIONS:
            yield as_case(name, vector)
    yield case(authenticators, "vectors")
    yield from without_program()
