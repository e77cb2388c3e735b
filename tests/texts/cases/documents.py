"""The documents say what is so: each link leads to a file and a heading, the README's examples give the output that it shows, pictures are those
of their data, the forms of commands those of tools/forms.txt, the version is that of VERSION, and all together have
no more words than somebody may be asked to read. What they name in the sources is checked by cited.py."""

import os
import re
import shutil
import subprocess
import sys
from pathlib import Path

import claims
import declared
import definitions
import proved_by
from harness.places import LONGEST, TOP
from harness.rooms import Skipped, Wrong, case, checked, needs

DOCUMENTS = [TOP / "README.md", TOP / "reference/README.md", TOP / "web/README.md", TOP / "vectors/README.md", *sorted((TOP / "docs").glob("*.md")), *sorted((TOP / "bench").glob("*.md"))]


# The most words of all documents and manual pages together, those that tools write among them, but for docs/theorem.md: that has a limit of its own
# (tools/theorem.py); and but for the tables of bench/RESULTS.md, which have as many rows as are measured. (The table of the names that stand otherwise, and what each party can do, have some 2,500 of them; how a file is opened, which
# trust.md prints whole, some 300; the manual of `list`, `record`, `find`, `backup`, `restore`, `status`, `publish` and `fetch` some 2,000.)
MOST_WORDS = 65_940

# The documents that name what others have by the words of these.
OF_OTHERS = ("glossary.md", "comparing.md")


def anchors(document):
    """The headings of a document, as links name them."""
    headings = re.findall(r"^#+ (.*)$", document.read_text(), re.M)
    return {re.sub(r"[^a-z0-9 _-]", "", heading.lower()).replace(" ", "-") for heading in headings}


def links(program):
    """The links that lead nowhere."""
    wrong = []
    for document in DOCUMENTS:
        for target in re.findall(r"\]\(([^)]+)\)", document.read_text()):
            path, _, anchor = target.partition("#")
            if re.match(r"\w+:", target):
                continue
            goal = (document.parent / path).resolve() if path else document
            if not goal.exists() or (anchor and anchor not in anchors(goal)):
                wrong.append(f"  {document.relative_to(TOP)}: {target}")
    return "\n".join(wrong) or None


def installed_links(room):
    """each link of the installed documents leads to a file and a heading there"""
    if not shutil.which("make"):
        raise Skipped("there is no make (Debian: make)")
    subprocess.run(["make", "-s", "install-documents", "install-python", f"PREFIX={room.folder}"], cwd=TOP, check=True, capture_output=True, timeout=LONGEST)
    for name, made in (("claims", claims), ("definitions", definitions)):
        declared.write_or_print(made.page([]), room.folder / f"share/doc/timeweave/tables/{name}.md")
    folder, wrong, count = room.folder / "share/doc/timeweave", [], 0
    for document in sorted(folder.rglob("*.md")):
        for target in re.findall(r"\]\(([^)]+)\)", document.read_text()):
            path, _, anchor = target.partition("#")
            goal = (document.parent / path).resolve() if path else document
            count += 1
            if not re.match(r"\w+:", target) and (not goal.is_relative_to(folder) or not goal.exists() or anchor and goal.suffix == ".md" and anchor not in anchors(goal)):
                wrong.append(f"  {document.relative_to(folder)}: {target}")
    if wrong or count < 50:
        raise Wrong("\n".join([*wrong, f"  {count} links"]))


def read_examples(text):
    """The commands of the README's examples, each with the output below it; an example is a block of code that begins with a command."""
    steps = []
    for block in re.findall(r"(?:^    .*\n)+", text, re.M):
        lines = [line[4:] for line in block.splitlines()]
        for line in lines if lines[0].startswith("$ ") else ():
            if line.startswith("$ "):
                steps.append((line[2:], []))
            else:
                steps[-1][1].append(line)
    return [(command, "".join(line + "\n" for line in output)) for command, output in steps]


def is_shown(output, got):
    """Whether this is the output that is shown, where .. stands for any text of a line, and by itself in a line for any lines."""
    parts = re.split(r"(^\.\.\n|\.\.)", output, flags=re.M)
    pattern = "".join({"..\n": r"(?:.*\n)*?", "..": ".*"}.get(part, re.escape(part)) for part in parts)
    return re.fullmatch(pattern, got) is not None


def tutorial(program):
    """Runs the README's examples, and tells where they give something else than it shows."""
    steps = read_examples((TOP / "README.md").read_text())
    script = "".join(f"{command}\nlast=$?; echo '=== end of step'; (exit $last)\n" for command, _ in steps)
    script = script.replace("$PWD/bin", os.path.dirname(program))
    ran = subprocess.run(["bash", "-c", script], cwd=TOP, capture_output=True, text=True, timeout=LONGEST)
    found = ran.stdout.split("=== end of step\n")
    wrong = [f"  $ {command}\n  shown {output!r}\n  got   {got!r}" for (command, output), got in zip(steps, found) if not is_shown(output, got)]
    return "\n".join(wrong + [ran.stderr] * bool(ran.stderr)) or None


def hour(room):
    """the commands of the hour in docs/trust.md give what it shows; those that need Go or the program are left out where it isn't here"""
    for name, package in (("perl", "perl"), ("bash", "bash")):
        needs(name, package)
    whole = (TOP / "docs/trust.md").read_text().split("\n## One hour\n")[1].split("\n## ")[0]
    text = re.sub(r"^    (?!\$ )(?:python3|grep) .*\n", "", whole, flags=re.M)
    steps = [step for step in read_examples(text) if shutil.which("go") or "event_roots" not in step[0]]
    script = "".join(f"{command}\necho '=== end of step'\n" for command, _ in steps)
    settings = {"cwd": TOP, "env": {**os.environ, "TMPDIR": str(room.folder)}, "timeout": LONGEST}
    ran = subprocess.run(["bash", "-c", script], capture_output=True, text=True, **settings)
    found = ran.stdout.split("=== end of step\n")
    wrong = [f"  $ {command}\n  shown {output!r}\n  got   {got!r}" for (command, output), got in zip(steps, found) if not is_shown(output, got)]
    lines = len((TOP / "examples/verifier_in_perl/Verifier.pm").read_text().splitlines())
    wrong += [f"  Verifier.pm has {lines} lines"] * (f"[{lines} lines of Perl]" not in text)
    wrong += tried_on_vectors(room.program, whole) if room.program else []
    if wrong or ran.stderr != "NOT PROVED: second implementation\n" or len(steps) < 5:
        raise Wrong("\n".join([*wrong, ran.stderr]))


def tried_on_vectors(program, text):
    """What is wrong with the hour's line that tries the program on the vectors."""
    found = re.search(r"^    (python3 .*) PROGRAM (.*)$", text, re.M)
    if not found:
        return ["  no line tries PROGRAM"]
    done = subprocess.run([*found[1].split(), program, *found[2].split()], cwd=TOP, capture_output=True, text=True, timeout=LONGEST)
    return [f"  {found[0]}\n{done.stdout[-2000:]}"] * (done.returncode != 0 or not re.search(r"^\d{3,} passed, 0 failed\n\Z", done.stdout, re.M))


def made(program):
    """The documents whose pictures aren't those of their data, or whose forms aren't those of tools/forms.txt."""
    wrong = []
    for script in ("tools/pictures.py", "bench/page.py", "tools/forms.py"):
        ran = subprocess.run([sys.executable, TOP / script, "--check"], capture_output=True, text=True, timeout=300)
        wrong += [f"  python3 {script} --check\n{ran.stdout}{ran.stderr}"] * bool(ran.returncode)
    return "\n".join(wrong) or None


def of_sources(program):
    """The crates of whose clauses or definitions the pages that are made of the sources' comments tell nothing."""
    wrong = []
    for page, of in ((claims.page([]), lambda crate: any(claim.words for claim in crate.clauses)), (definitions.page([]), lambda crate: any(crate.modules.values()))):
        told = dict(re.findall(r"^## (\w+)\n(.*?)(?=^## |\Z)", page, re.M | re.S))
        empty = [name for name, crate in declared.crates().items() if of(crate) and not re.search(r"^ *[-|].*\w", told.get(name, ""), re.M)]
        wrong += [f"  {page.splitlines()[0][2:]}: nothing of {name}" for name in empty]
    return "\n".join(wrong) or None


def times(program):
    """The crates that the table of docs/times.md leaves out, or has beyond crates.txt, where there is a table."""
    table = (TOP / "docs/times.md").read_text().partition("<!-- times, by")[2]
    found = set(re.findall(r"^\| `(\w+)`", table, re.M))
    wrong = sorted(found ^ set(declared.crates())) if found else []
    return f"  the table of docs/times.md differs in {', '.join(wrong)}: `python3 tools/times.py check --write`" if wrong else None


def version(program):
    """The documents that tell another version than VERSION."""
    wanted = (TOP / "VERSION").read_text().strip()
    told = {"docs/timeweave.1": r'^\.TH .*"Timeweave (\S+)"', "docs/operating.md": r"^This is version (\S+) ", "docs/releases.md": r"^\| `timeweave_(\S+)_amd64", "reference/pyproject.toml": r'^version = "(\S+)"'}
    found = {path: re.findall(pattern, (TOP / path).read_text(), re.M) for path, pattern in told.items()}
    return "\n".join(f"  {path}: {versions}, and VERSION {wanted}" for path, versions in found.items() if versions != [wanted]) or None


def length(program):
    """The README's words where they are more than 1,600."""
    words = len((TOP / "README.md").read_text().split())
    return f"  README.md has {words} words" if words > 1600 else None


def prose(page):
    """The lines of a page that are prose: no code, no link's target, no row of the table of others' words."""
    whole = re.sub(r"(?<=\n## Words\n).*?(?=\n## )", lambda found: "\n" * found[0].count("\n"), page.read_text(), flags=re.S)
    text = re.sub(r"```.*?```|`[^`]*`|\]\([^)]*\)", lambda found: "\n" * found[0].count("\n"), whole, flags=re.S)
    return [line if not line.startswith("    ") else "" for line in text.splitlines()]


def glossary(program):
    """The words that stand for another one of docs/glossary.md, and those that say that something is still to come."""
    rows = re.findall(r"\(\*not\*\s([^)]*)\)", (TOP / "docs/glossary.md").read_text())
    refused = [word for row in rows for word in re.split(r",\s", row)] + ["(?:as|are|is|crates) to come", "not yet"]
    pattern = re.compile(rf"\b(?:{'|'.join(refused)})(?:s|es)?\b", re.I)
    lines = ((page, number, line) for page in pages() if page.name not in OF_OTHERS for number, line in enumerate(prose(page), 1))
    return "\n".join(f"  {page.relative_to(TOP)}:{number}: {found}" for page, number, line in lines for found in pattern.findall(line)) or None


def pages():
    """All documents and manual pages."""
    return [*DOCUMENTS, *sorted((TOP / "docs").glob("*.1")), *sorted((TOP / "weft").glob("*.1"))]


def words(program):
    """How many words all documents have, where they are more than may be."""
    texts = {page: page.read_text() for page in pages() if page.name != "theorem.md"}
    texts[TOP / "bench/RESULTS.md"] = re.sub(r"^\|.*", "", texts[TOP / "bench/RESULTS.md"], flags=re.M)
    counts = {page.relative_to(TOP): len(text.split()) for page, text in texts.items()}
    told = ", ".join(f"{page} {count}" for page, count in counts.items())
    return f"  {sum(counts.values())} words, at most {MOST_WORDS} are allowed: {told}" if sum(counts.values()) > MOST_WORDS else None


def opening(program):
    """Where docs/trust.md doesn't print how a file is opened as it stands."""
    lines = (TOP / "crates/tw_hostio/src/opening.rt").read_text().splitlines(keepends=True)
    code = "".join(line for line in lines if not line.lstrip().startswith("//"))
    is_there = code.lstrip() in (TOP / "docs/trust.md").read_text()
    return None if is_there else "  docs/trust.md prints another crates/tw_hostio/src/opening.rt"


def kit(room):
    """README and NOTICE name the kit of KIT, and the kit at hand has its logic; one of another name with that logic is told, and is no fault"""
    named, found = proved_by.proved_by(), proved_by.at_hand()
    wrong = proved_by.otherwise(proved_by.documents(), named)
    if found and not proved_by.same_logic(found, named):
        wrong.append(proved_by.compared(found, named))
    if wrong:
        raise Wrong("\n".join(f"  {line}" for line in wrong))
    if found is None or found != named:
        raise Skipped(proved_by.compared(found, named) if found else "there is no rt (the kit)")


def kits(room):
    """a kit of another name with the same logic is told apart from one of another logic, and a document that names another kit is told"""
    one = proved_by.Kit("rattle-kit-1", "aa")
    others = (one, proved_by.Kit("rattle-kit-2", "aa"), proved_by.Kit("rattle-kit-1", "bb"))
    told = [(proved_by.same_logic(other, one), proved_by.compared(other, one).split(":")[0]) for other in others]
    wanted = [
        (True, "The kit at hand is the one by which this tree was proved"),
        (True, "The kit at hand is rattle-kit-2, and this tree was proved by rattle-kit-1"),
        (False, "The kit at hand is rattle-kit-1 with the logic bb"),
    ]
    texts = {"good": "by rattle-kit-1.", "other": "by rattle-kit-2", "both": "rattle-kit-1 rattle-kit-2", "none": ""}
    found = [line.split(" names ")[0] for line in proved_by.otherwise(texts, one)]
    if told != wanted or found != ["other", "both", "none"]:
        raise Wrong(f"  {told}, {found}")


def without_program():
    """The cases that need no built program."""
    checks = {
        "links": links,
        "pictures and forms": made,
        "pages of clauses and definitions": of_sources,
        "times": times,
        "version": version,
        "length of the README": length,
        "words": words,
        "one word for one thing": glossary,
        "how a file is opened": opening,
    }
    yield from checked("documents", checks)
    yield case(installed_links, "documents")
    yield from (case(work, "documents") for work in (kit, kits, hour))


def cases():
    yield {"name": "documents: tutorial", "check": tutorial}
    yield from without_program()
