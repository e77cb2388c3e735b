"""What the documents name is there: each clause in the contract of the function beside it, each definition in its module, each path."""

import re

from declared import crates

from harness.places import TOP
from harness.rooms import checked

DOCUMENTS = [TOP / "README.md", TOP / "reference/README.md", TOP / "web/README.md", TOP / "vectors/README.md", *sorted((TOP / "docs").glob("*.md")), *sorted((TOP / "bench").glob("*.md"))]
SOURCES = ("crates/*/src/**/*.rt", "crates/*/specs/**/*.antt", "crates/*/proofs/**/*.antt", "tests/**/*.py", "tests/texts/cases/promised.txt", "reference/**/*.py", "weft/**/*.py", "web/tests/*.*", "tools/*.*", "bench/*.py", "docs/*.txt")
CRATE = re.compile(r"`(tw_\w+|timeweave(?:_c)?)\b")
NAMES = r"(?:`\w+`(?:,\s+|\s+and\s+)?)+"
PATH = re.compile(r"(?<![\w/.$])(?:crates|tests|tools|specs|docs|bench|examples|reference|proofs|src|must-fail|cases|harness|tw_\w+)/[\w.*/-]*\w")


def sections(text, level):
    """The parts of a document that begin with a heading of a level, without their pictures; what stands before is left out."""
    return re.split(rf"^{level} ", re.sub(r"```.*?```", "", text, flags=re.S), flags=re.M)[1:]


def inside(names):
    """The names between backticks."""
    return re.findall(r"`([\w:]+)`", names)


def members(owner, named):
    """What stands under a name in each crate that has it: of the crate or its specs, of a module, a record or a function."""
    crate, _, rest = owner.partition("/")
    if crate in crates():
        module = rest.removeprefix("specs/").rpartition("/")[2]
        return [crates()[crate].members(module) or set() if module != rest else crates()[crate].names()]
    found = (crates()[crate].members(owner) for crate in ([named] if named else crates()))
    return [known for known in found if known is not None]


def of_owners(program):
    """The members that a document names beside their owner and that aren't there: `owner`: `member`, `member`, or `owner` of `CRATE`:
    `member` where several crates have the owner; `CRATE/specs/MODULE` (`member`), where the module may stand in a room; `member` of or in `CRATE`."""
    wrong = []
    for document in DOCUMENTS:
        text = document.read_text()
        found = re.findall(rf"`([\w/:]+)`(?:\s+of\s+`((?:tw|timeweave)_\w+)`)?:\s+({NAMES})", text)
        found += re.findall(rf"`(\w+/specs/\w+)`()\s\(({NAMES})\)", text)
        found += [(crate, "", name) for name, crate in re.findall(r"(`\w+`)\s+(?:of|in)\s+`((?:tw|timeweave)_\w+)`", text)]
        for owner, crate, names in found:
            known = members(owner, crate)
            if len(known) > 1:
                wrong.append(f"  {document.name}: {len(known)} crates have {owner}, and none is named beside it")
            wrong += [f"  {document.name}: {owner} has no {name}" for name in inside(names) if len(known) == 1 and name not in known[0]]
    return "\n".join(wrong) or None


def in_sections(program):
    """The code names in docs/definitions.md that no crate has which their section names; command words excepted."""
    wrong, commands = [], set(re.findall(r'\(codes "(\w+)"', (TOP / "crates/tw_words/specs/CommandLine.antt").read_text()))
    for part in sections((TOP / "docs/definitions.md").read_text(), "##"):
        named = set(CRATE.findall(part))
        known = commands.union(named, *(crates()[name].names() for name in named if name in crates()))
        heading = part.partition("\n")[0]
        unknown = [name for name in re.findall(r"`(\w*[a-z]\w*)`", part) if name not in known]
        wrong += [f"  {heading}: none of {', '.join(sorted(named))} has {name}" for name in unknown]
    return "\n".join(wrong) or None


def theorems(program):
    """The theorems of docs/claims.md that aren't said in one sentence first, or of which no clause is named that carries them; that what is named is there, `of_owners` checks.
    The last one is carried by no clause."""
    text = (TOP / "docs/claims.md").read_text().split("\n## The six theorems\n")[1].split("\n## ")[0]
    parts = sections(text, "###")
    wrong = [] if len(parts) == 6 else [f"  {len(parts)} theorems"]
    for number, part in enumerate(parts, 1):
        title, first = part.split("\n\n")[:2]
        named = re.findall(r"^- `[\w:]+` of `(?:tw|timeweave)_\w+`", part, re.M)
        wrong += [f"  {title}: no sentence stands first"] * (not re.fullmatch(r"\*[^*]+\.\*", first, re.S))
        wrong += [f"  {title}: carried by no clause"] * (number < len(parts) and not named)
    return "\n".join(wrong) or None


def code_names(program):
    """The names with an underscore or a capital inside, between backticks in a document, that stand in no source, and those of crates that aren't there."""
    sources = [path for pattern in SOURCES for path in TOP.glob(pattern) if path.is_file()]
    known = set(crates()).union((path.stem for path in sources), *(re.findall(r"\w+", path.read_text()) for path in sources))
    wrong = [
        f"  {document.name}: {name}"
        for document in DOCUMENTS
        for name in re.findall(r"`(\w*[a-z](?:_|[A-Z])\w*)`", document.read_text())
        if name not in known or name.startswith("tw_") and name not in crates()
    ]
    return "\n".join(wrong) or None


def named_paths(text):
    """The paths of a document, and those of the files that stand behind one by their names alone: `CRATE/proofs/A`, `B`; and so on: `C`."""
    yield from PATH.findall(text)
    for folder, more in re.findall(r"`(tw_\w+/(?:proofs|specs)/(?:\w+/)*)\w+`((?:[,;]\s(?:[\w ]+: )?`\w+`)+)", text):
        yield from (folder + name for name in inside(more))


def paths(program):
    """The paths that a document names and that lead to no file; words in capitals in them stand for any name."""
    wrong = []
    for document in DOCUMENTS:
        for path in named_paths(document.read_text()):
            pattern = re.sub(r"\b[A-Z]+\b", "*", path)
            places = [pattern, f"crates/{pattern}", f"crates/*/{pattern}", f"tests/acceptance/{pattern}", f"tests/texts/{pattern}"]
            if not any(next(TOP.glob(place + end), None) for place in places for end in ("", ".antt")):
                wrong.append(f"  {document.name}: {path}")
    return "\n".join(wrong) or None


def tried(program):
    """The cases and tests that docs/parties.md names and that aren't there; and the rows of its tables that name none."""
    text = (TOP / "docs/parties.md").read_text()
    wrong = []
    for name in re.findall(r"`((?:weft_\w+|reference|library|released|web)\.\w+|test_\w+|audits)`", text):
        module, _, function = name.partition(".")
        path = TOP / ("tests/deciding" if module.startswith("test_") else "tests/acceptance/cases") / f"{module}.py"
        if not path.exists() or function and f"\ndef {function}(" not in path.read_text():
            wrong.append(f"  {name}")
    rows = [line for line in text.splitlines() if line.startswith("| ") and not line.startswith(("| he can", "| it can"))]
    wrong += [f"  nothing tries: {row}" for row in rows if not re.search(r"\| (?:`|the proved theorem)[^|]*\|$", row)]
    return "\n".join(wrong) or None


def cases():
    checks = {
        "members": of_owners,
        "names of sections": in_sections,
        "theorems": theorems,
        "code names": code_names,
        "paths": paths,
        "what each party can't do": tried,
    }
    yield from checked("cited", checks)
