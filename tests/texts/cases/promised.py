"""The names that are promised to whoever writes Rattle: each stands where promised.txt has it, in its own form or in the one that stands in its
place, and each of the latter has its row in docs/DECISIONS.md. The list is made by hand and not of the sources: nothing that nobody uses goes unseen."""

import re
from functools import lru_cache
from typing import NamedTuple

from crates import below_all, read_crates
from harness.places import TOP
from harness.rooms import checked

LIST = TOP / "tests/texts/cases/promised.txt"
TOLD = "Names that stand otherwise"

# What stands for one type under several names, by the type.
ALIASES = {"Page": "[u8; 4096]", "RECEIPT_SIZE": "116", "StepList": "Sequence<Step>", "NodeList": "Sequence<Node>", "Steps": "Sequence<Step>", "Nodes": "Sequence<Node>"}

# The names that a crate promises that have another form there, of at most so many.
MOST_OTHERWISE = 25


class Promise(NamedTuple):
    """A promised name: the crate that was to have it and its form there; where it stands, and its form; whether that is another one."""

    crate: str
    form: str
    stands: str
    has: str

    @property
    def is_otherwise(self):
        return (self.stands, self.has) != (self.crate, self.form)


def promises():
    """The list."""
    crate = None
    for line in LIST.read_text().splitlines():
        if re.fullmatch(r"tw_\w+", line):
            crate = line
        elif line.startswith("  "):
            form, _, other = line.strip().partition(" => ")
            where, _, has = other.partition(": ") if re.match(r"tw_\w+(: |$)", other) else (crate, "", other)
            yield Promise(crate, form, where or crate, has or form)


# ---- what stands in the sources

FUNCTION = re.compile(r"^( *)(pub )?fn (\w+)(?:<(?:[^<>]|<[^<>]*>)*>)?\(((?:[^()]|\([^()]*\))*)\)[ \t]*(?:-> *((?:\[[^\]\n]*\]|[^\n{;\[])*?))?[ \t]*(?:;|\{|$)", re.M)
TYPE = re.compile(r"^pub (struct|enum|trait|type) (\w+)(?:<[^{;\n(]*>)?([^\n]*)(?:\n((?: .*\n|\n)*?)\})?", re.M)
OWNER = re.compile(r"^(?:pub trait|impl(?:<[^\n]*?>)?(?: [\w<>, ']+ for)?) (\w+)[^\n]*(?:\n(?:    |\{|$)[^\n]*)*?", re.M)


def plain(text):
    """A type or form without lifetimes, visibility, paths and aliases, in one spelling."""
    text = re.sub(r"//[^\n]*|'\w+,? ?|pub(?:\(\w+\))? ", "", text)
    text = re.sub(r",(?= *[)}])", "", re.sub(r"\s+", " ", text)).replace("<>", "").strip().rstrip(",")
    return re.sub(r"\b(" + "|".join(ALIASES) + r")\b", lambda found: ALIASES[found[1]], text)


def parts(text):
    """The pieces of a list between commas that stand in no bracket."""
    found, depth, piece = [], 0, ""
    for letter in text:
        depth += letter in "(<[{"
        depth -= letter in ")>]}"
        if letter == "," and not depth:
            found.append(piece.strip())
            piece = ""
        else:
            piece += letter
    return [piece for piece in [*found, piece.strip()] if piece]


def call(name, parameters, answer):
    """A call's form: its name, the types of its parameters, and its answer's."""
    types = [re.sub(r"^_?\w+: ", "", part) for part in parts(plain(parameters))]
    return f"fn {name}({', '.join(types)})" + (f" -> {plain(answer)}" if answer else "")


@lru_cache(maxsize=None)
def sources(crate):
    """The texts of a crate's files."""
    return [path.read_text() for path in sorted((TOP / "crates" / crate / "src").rglob("*.rt"))]


def forms_of_calls(text):
    """The forms of the public calls of a file, with the type that each is of, if any."""
    owner, place = None, 0
    heads = [(found.start(), found[1]) for found in re.finditer(r"^(?:pub trait|impl(?:<[^\n]*?>)?(?: [^\n]*? for)?) (\w+)", text, re.M)]
    for found in FUNCTION.finditer(text):
        while place < len(heads) and heads[place][0] < found.start():
            owner, place = heads[place][1], place + 1
        if found[1]:
            yield call(f"{owner}::{found[3]}", found[4], found[5])
        elif found[2]:
            yield call(found[3], found[4], found[5])


def fields(body):
    """The fields, or variants, of a type's body."""
    kept = "\n".join(line for line in (body or "").split("\n") if not re.match(r"\s*(//|#|ghost\b|invariant\b|inverse\b)", line))
    return parts(plain(kept))


def forms_of_types(text):
    """The forms of the public types of a file, with those of an enum's variants."""
    for kind, name, rest, body in TYPE.findall(text):
        if kind in ("trait", "type"):
            yield f"{kind} {name}"
            continue
        inside = fields(body)
        tuple_fields = re.match(r"\((.*)\);", plain(rest))
        yield f"{kind} {name}({tuple_fields[1]})" if tuple_fields else f"{kind} {name} {{ {', '.join(inside)} }}" if inside else f"{kind} {name}"
        if kind == "enum":
            yield from (f"variant {name}::{variant}" for variant in inside)


@lru_cache(maxsize=None)
def handed_out(crate):
    """What a crate hands out, by the last name: the crate that each comes from."""
    found = {}
    for text in sources(crate):
        for path, names in re.findall(r"^pub use ([\w:]+?)(?:::\{([^}]*)\}|(?=;));?", text, re.M):
            whole = [f"{path}::{name.strip()}" for name in names.split(",") if name.strip()] if names else [path]
            for it in whole:
                first, last = it.split("::")[0], it.split("::")[-1]
                found[last] = first if first in read_crates() else crate
    return found


@lru_cache(maxsize=None)
def stands(crate):
    """All forms that a crate hands out."""
    own = {form for text in sources(crate) for form in (*forms_of_calls(text), *forms_of_types(text))}
    return {form for form in own if head_of(form) in handed_out(crate)}


def head_of(form):
    """The name of a form that has to be handed out: a call's, or its type's."""
    return re.match(r"\w+ (\w+)", form)[1]


def owned(form):
    """A method's form, in which its type stands by its name alone."""
    owner = re.match(r"fn (\w+)::", form)
    return re.sub(rf"\bSelf\b|\b{owner[1]}<[^<>]*>", owner[1], form) if owner else form


def meets(wanted, found):
    """Whether a form is the wanted one: a type may have more fields, and private ones; a bare name asks for nothing else."""
    wanted, found = owned(plain(wanted)), owned(plain(found))
    if wanted == found or wanted == found.split(" {")[0].split("(")[0].split("<")[0]:
        return True
    has = re.fullmatch(r"((?:struct|enum|variant) [\w:]+) \{ (.*) \}", wanted)
    given = re.fullmatch(r"((?:struct|enum|variant) [\w:]+)(?: \{ (.*) \})?", found)
    return bool(has and given and has[1] == given[1] and set(parts(has[2])) <= set(parts(given[2] or "")))


def is_there(crate, form):
    """Whether the crate hands out the form, its own or that of a crate below it."""
    name = head_of(form)
    origin = handed_out(crate).get(name)
    seen = {crate}
    while origin and origin not in seen:
        seen.add(origin)
        crate, origin = origin, handed_out(origin).get(name)
    return any(meets(form, found) for found in stands(crate))


def kept(program):
    """The promised names that don't stand as the list has them."""
    wrong = []
    for promise in promises():
        if promise.stands not in read_crates():
            wrong.append(f"  {promise.crate}: {promise.form}: there is no crate {promise.stands}")
        elif not is_there(promise.stands, promise.has):
            wrong.append(f"  {promise.stands} doesn't hand out {promise.has}")
    return "\n".join(wrong) or None


def offered(program):
    """The promised names that stand in their own form in a crate below the one that was to have them: it could hand them out."""
    could = [it for it in promises() if it.has == it.form and it.stands in below_all(it.crate, read_crates())]
    return "\n".join(f"  {it.crate} could hand out {it.form} of {it.stands}" for it in could) or None


def named(program):
    """The promised names that nothing has: where another form stands in a name's place, one of the two crates hands out that name too."""
    gone = [it for it in promises() if head_of(it.form) not in {**handed_out(it.crate), **handed_out(it.stands)}]
    return "\n".join(f"  neither {it.crate} nor {it.stands} hands out {head_of(it.form)}" for it in gone) or None


def compare_rows(program):
    """The names that stand otherwise without a row in DECISIONS, and whether there are more than there may be."""
    text = (TOP / "docs/DECISIONS.md").read_text().partition(f"## {TOLD}")[2].partition("\n## ")[0]
    otherwise = {head_of(it.form) for it in promises() if it.is_otherwise}
    wrong = [f"  {name} has no row in docs/DECISIONS.md" for name in sorted(otherwise) if not re.search(rf"`[^`\n]*\b{name}\b[^`\n]*`", text)]
    rows = len(re.findall(r"^\| `", text, re.M))
    wrong += [f"  {rows} rows tell of names that stand otherwise, at most {MOST_OTHERWISE} may"] * (rows > MOST_OTHERWISE)
    return "\n".join(wrong) or None


def cases():
    yield from checked("promised", {"names": kept, "names of other forms": named, "what could be handed out": offered, "what stands otherwise is told": compare_rows})
