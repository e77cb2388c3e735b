#!/usr/bin/env python3
"""Writes docs/theorem.md: the theorem about printed reports on one page, with every definition that a reader needs, from the sources; and the table of
docs/trust.md that tells how much each clause of `run` means.

    python3 tools/theorem.py            writes both anew
    python3 tools/theorem.py --check    tells whether they differ, and how long the page is; writes nothing

The clauses begin it. What they name is looked up through the imports of crates/*/specs, and what that names, down to the kit's own functions, which stand in
a list with their meanings. One definition is named and not shown: the list of the texts of which two clash. What stands around the definitions is here.
"""

import re
import textwrap
from functools import lru_cache
from pathlib import Path
from typing import Dict, Iterable, Iterator, List, NamedTuple, Optional, Set, Tuple

from command_line import reader_of_words, run_script

TOP = Path(__file__).resolve().parent.parent
PAGE = TOP / "docs/theorem.md"
TRUST = TOP / "docs/trust.md"

# The most that the definitions may have, without comments and blank lines: lines, columns of one, characters that aren't blank.
MOST_LINES, MOST_COLUMNS, MOST_CHARACTERS = 400, 140, 20_000

# What is named and not shown.
UNSHOWN = {"hashed_texts", "hashed_by_maps", "Spells", "history_layout"}

IMPORT = re.compile(r"^(?:pub )?use Rattle\.([\w.◌]+?)(?:\.\{([^}]*)\})?(?: as (\w+))?$")
DEFINED = re.compile(r"^( *)((?:(?:pub|abbrev|unfoldable) )*)(data |record )?([^\s:({]+)((?:, [^\s:({]+)*)(?= :| \(| \{)")
NAME = re.compile(r"[^\s(){}.,;∷λ]+")
BLOCK = re.compile(r"^ *module _ .* where$")

# The clauses, each with the file and the function of its contract.
CLAUSES = {
    "run": ("crates/tw_app/src/ending.rt", "run", "plain"),
    "line": ("crates/tw_app/src/ending.rt", "run", "plain_line"),
    "judged": ("crates/tw_judge/src/told.rt", "judge", "plain"),
    "once": ("crates/tw_plain/src/laws.rt", "reading_laws", "once"),
}

# Those of the second part, on maps and on taking over.
MORE_CLAUSES = {
    "map": ("crates/tw_app/src/ending.rt", "run", "plain_map"),
    "judged_map": ("crates/tw_judge/src/maps.rt", "judge_maps", "plain"),
    "map_once": ("crates/tw_plain/src/laws.rt", "reading_laws", "map_once"),
    "front_once": ("crates/tw_plain/src/laws.rt", "reading_laws", "front_once"),
    "adoption": ("crates/tw_app/src/ending.rt", "run", "plain_adoption"),
}
ALL_CLAUSES = {**CLAUSES, **MORE_CLAUSES}

# In which order the definitions are shown: a heading, and the modules.
PARTS = (
    ("What a report says by your lines", "tw_plain/specs/Plain"),
    ("What a claim means", "tw_base/specs/history/Facts tw_base/specs/history/Chains tw_base/specs/history/Family tw_chain/specs/Services"),
    ("Two texts with one digest", "tw_base/specs/kinds/Clash"),
    ("What the inputs hold", "tw_outside/specs/Files"),
    ("Your lines, and what is printed", "tw_msg/specs/AnchorsFile tw_text/specs/Words tw_text/specs/Reports tw_text/specs/Lines"),
    ("What a history is", "tw_base/specs/history/History tw_base/specs/history/HistoryCodec"),
    ("Which histories are sound", "tw_base/specs/history/Sound tw_base/specs/history/Rules tw_base/specs/history/Limits tw_base/specs/history/Tree tw_base/specs/history/Entries"),
    ("What an authenticator is", "tw_base/specs/history/Auth tw_base/specs/kinds/Levels tw_base/specs/kinds/Texts tw_base/specs/events/EventTree"),
    ("Names, bytes and lists", "tw_base/specs/kinds/Names tw_base/specs/kinds/Bytes tw_base/specs/kinds/Lists"),
)  # fmt: skip

# The same of the second part, of what the first doesn't show.
MORE_PARTS = (
    ("What bounds say by your lines", "tw_plain/specs/Maps tw_tmap/specs/Bounds"),
    ("The first bytes of LOW, and what is printed", "tw_chain/specs/Proofs tw_skipproof/specs/Codecs tw_base/specs/format/Fields tw_tmap/specs/Texts tw_text/specs/Reports tw_base/specs/history/Reasons"),
    ("What a history that is taken over says by your lines", "tw_app/specs/PlainAdoptions tw_service/specs/Machine tw_adopt/specs/HistoryFronts tw_base/specs/kinds/Lists"),
)  # fmt: skip


class Definition(NamedTuple):
    """A definition of a module: its name, the comment above it, its lines, and the heads of the blocks that it stands in."""

    name: str
    comment: Tuple[str, ...]
    lines: Tuple[str, ...]
    blocks: Tuple[str, ...]

    def code(self) -> List[str]:
        """Its lines without comments, as they stand in their blocks."""
        return [line for line in self.lines if not line.lstrip().startswith("--")]


Place = Tuple[str, str]
"""A name of the logic: its module, as Rattle.tw_base.specs.kinds.Lists, and what stands there."""


class Module:
    """A module of definitions: what it brings in, and what it defines, in its order."""

    def __init__(self, name: str, text: str) -> None:
        self.name = name
        self.brought: Dict[str, Place] = {}
        self.definitions: Dict[str, Definition] = {}
        lines = [line for line in text.split("\n") if not self.bring_in(line)]
        for definition in definitions(lines):
            self.definitions[definition.name] = definition

    def bring_in(self, line: str) -> bool:
        """Notes what a line brings in, if it is an import."""
        found = IMPORT.match(line)
        for name in found[2].split(", ") if found and found[2] else []:
            there, _, here = name.partition(" as ")
            self.brought[here or there] = (f"Rattle.{found[1]}", there)
        if found and found[3]:
            self.brought[found[3]] = (f"Rattle.{found[1]}", found[3])
        return bool(found)

    def definition(self, name: str) -> Definition:
        """The definition of this name, or the one that it is a constructor of."""
        owners = (each for each in self.definitions.values() if any(re.match(rf" +{re.escape(name)} :", line) for line in each.lines))
        return self.definitions.get(name) or next(owners)

    def place(self, name: str) -> Optional[Place]:
        """Where a name of this module stands."""
        return (self.name, name) if name in self.definitions else self.brought.get(name)


def definitions(lines: Iterable[str]) -> Iterator[Definition]:
    """The definitions of a module's lines."""
    blocks: List[str] = []
    comment: List[str] = []
    current: Optional[Definition] = None
    for line in lines:
        indent = indent_of(line)
        if line.strip() and not is_comment(line):
            blocks = [block for block in blocks if indent_of(block) < indent]
        head = DEFINED.match(line)
        is_head = head and indent == 2 * len(blocks) and (head[3] or " : " in line) and not (current and head[4] == current.name)
        if not line.strip() or BLOCK.match(line) or is_head:
            yield from [current] if current else []
            current = Definition(head[4], tuple(comment), (line,), tuple(blocks)) if head and is_head else None
            blocks += [line] if BLOCK.match(line) else []
            comment = []
        elif is_comment(line) and indent <= 2 * len(blocks):
            comment.append(line)
        elif current:
            current, comment = current._replace(lines=(*current.lines, *comment, line)), []
    yield from [current] if current else []


def indent_of(line: str) -> int:
    """How many blanks a line begins with."""
    return len(line) - len(line.lstrip())


def is_comment(line: str) -> bool:
    """Whether a line has words alone."""
    return line.lstrip().startswith("--")


def folder_of(crate: str) -> Path:
    """The folder of a crate."""
    return TOP / "crates" / crate


@lru_cache(maxsize=None)
def module(name: str) -> Optional[Module]:
    """A module of this repository, where there is one of the name."""
    _, crate, *parts = name.split(".")
    path = folder_of(crate) / f"{'/'.join(parts)}.antt"
    return Module(name, path.read_text()) if crate.startswith("tw_") and path.exists() else None


class Closure(NamedTuple):
    """What is shown: definitions by module, types of the code, its constants; and the names of the kit."""

    shown: Set[Place]
    types: Set[Place]
    constants: Set[Place]
    known: Set[Place]

    def beyond(self, other: "Closure") -> "Closure":
        """What of it the other one hasn't."""
        return Closure(*(own - others for own, others in zip(self, other)))


def sort_of(place: Place, found: Closure) -> Optional[Set[Place]]:
    """The part of the closure that a name belongs to, where it is no definition of this repository."""
    if not place[0].startswith("Rattle.tw_"):
        return found.known
    if ".declared." in place[0]:
        return found.constants if place[0].endswith(".TheConstants") else found.types
    return None


def closure(words: Iterable[Place], unshown: Iterable[str] = ()) -> Closure:
    """All that these names stand for, down to what isn't shown, the types of the code and the kit."""
    found, left = Closure(set(), set(), set(), set()), list(words)
    while left:
        place = left.pop()
        part = sort_of(place, found)
        home = module(place[0]) or module(place[0].rpartition(".")[0])
        if part is not None:
            part.add(type_of_variant(place))
        elif home and place[1] in home.brought and place[1] not in home.definitions:
            left.append(home.brought[place[1]])
        elif home and place not in found.shown and place[1] not in unshown:
            definition = home.definition(place[1])
            if (home.name, definition.name) not in found.shown:
                found.shown.add((home.name, definition.name))
                left += names_in(home, definition)
    return found


def type_of_variant(place: Place) -> Place:
    """The type of the code that a variant is of; another place as it is."""
    home = place[0].removesuffix(".TheVariants")
    return place if home == place[0] else (home, home.rpartition(".")[2])


def names_in(home: Module, definition: Definition) -> List[Place]:
    """The names of a definition, and of the blocks that it stands in, that stand for something."""
    text = re.sub(r'"[^"]*"', "", "\n".join([*definition.code(), *definition.blocks]))
    places = [home.place(name) for name in set(NAME.findall(text)) - {definition.name}]
    return [place for place in places if place]


# ---- types and constants of the code

ITEM = r"^pub (?:struct|enum) {name}(?:<[^>]*>)? \{{\n(.*?)^\}}"


def source_of(place: Place) -> str:
    """The text of the file of code in which a type or a constant is declared."""
    parts = place[0].split(".declared.")
    names = [part for part in parts[1].split(".") if part not in (place[1], "TheConstants")]
    return (folder_of(parts[0].split(".")[1]) / "src" / f"{'/'.join(names)}.rt").read_text()


def type_line(place: Place) -> str:
    """A type in one line: its fields, or its variants with theirs."""
    text = source_of(place)
    found = re.search(ITEM.format(name=place[1]), text, re.M | re.S)
    if not found:
        raise SystemExit(f"{place[0]} has no type {place[1]}")
    words = " ".join(re.sub(r"//.*|\bpub ", "", found[1]).split())
    words = re.sub(r",? ?\}", " }", words.rstrip(",")).replace("{ ", "{ ")
    return f"{'struct' if f'pub struct {place[1]}' in text else 'enum'} {place[1]} {{ {words} }}"


def constant(place: Place) -> str:
    """A constant, with its value."""
    found = re.search(rf"^pub const {place[1]}: \w+ = (.*);", source_of(place), re.M)
    return f"{place[1]} = {found[1] if found else '?'}"


# ---- what the kit names

KIT = {
    "ℕ": "the numbers from 0 on",
    "zero, suc": "0, and the next number",
    "Bool": "`true` and `false`",
    "List": "lists",
    "Option": "`Some x`, or `None`",
    "IsSome, IfSome": "that it is some; that what follows holds of it, if it is some",
    "IfOk": "that what follows holds of what a call answers, if there was memory",
    "IsTrue": "that a test is true",
    "Ordering": "`Less`, `Equal` or `Greater`",
    "sha256": "SHA-256 of FIPS 180-4",
    "length, map, flat_map, take, drop, replicate, max": "what they are called",
    "slice_get, slice_index_or": "the element at a place, counted from 0, or none; or the value given",
    "slice_split": "the parts between the elements that pass a test",
    "before_first, after_first": "what stands before and behind the first element that passes",
    "take_while, list_all": "the front that passes; whether all pass",
    "sum_by": "the sum over a list",
    "find": "the first element that passes, or none",
    "option_and_then, option_map, option_map_or, option_to_list, result_unwrap_or": "what is made of a value that is there; or nothing, or the value given",
    "not, nat_le, nat_lt": "tests",
    "bytes_eq": "whether two lists are the same",
    "nat_cmp, slice_cmp, ordering_then": "the order of numbers; of lists, by the first element that differs; by a first order and then a second",
    "codes": "the bytes of a text",
    "string_bytes": "those of a word of the command line",
    "decimal, digits_value": "a number below 2^64 in decimal digits, and back",
    "encode_lower, decode_sized": "bytes in hexadecimal digits, and back",
    "to_be_bytes, w32, w64, bytes_high_first": "a number in 4, 8 or so many bytes, the highest first",
    "trailing_zeros": "how many times 2 divides a number",
    "FinMap, get": "a finite map, and what it has under a key",
}


def kit_names(found: Closure) -> str:
    """What the names of the kit mean, in one line."""
    told = {name for names in KIT for name in names.split(", ")}
    used = {name for _, name in found.known if name} - {"[]", "None", "Some", "Less", "true", "false", "tt", "Ok"}
    operators = {name for name in used if "◌" in name}
    if used - operators - told or told - used:
        raise SystemExit(f"tools/theorem.py: KIT lacks {sorted(used - operators - told)}, and has {sorted(told - used)} for nothing")
    return "; ".join(f"{', '.join(f'`{name}`' for name in names.split(', '))}: {words}" for names, words in KIT.items()) + "."


# ---- the page


def wrapped(line: str) -> List[str]:
    """A line of code, broken where it is wider than a line of the page may be."""
    if len(line) <= MOST_COLUMNS:
        return [line]
    at = line.rindex(" ", 0, MOST_COLUMNS)
    return [line[:at], *wrapped(" " * (indent_of(line) + 4) + line[at + 1 :])]


def show_definition(definition: Definition) -> List[str]:
    """A definition as the page has it: without the words that say who may use it, and without the block that it stands in."""
    least = min(indent_of(line) for line in definition.lines)
    lines = [line[least:] for line in (*definition.comment, *definition.lines)]
    lines = [re.sub(r"^((?:  )*)((?:abbrev|unfoldable|pub) )+", r"\1", line) for line in lines]
    return [part for line in lines for part in wrapped(line.rstrip())]


def of_module(name: str, found: Closure) -> List[List[str]]:
    """What of a module is shown, in its order."""
    home = module(f"Rattle.{name.replace('/', '.')}")
    return [show_definition(definition) for definition in home.definitions.values() if (home.name, definition.name) in found.shown] if home else []


def clause_of(path: str, function: str, name: str) -> str:
    """A clause, as it stands in the contract of a function of this file."""
    text = (TOP / path).read_text()
    start = text.index(f"ensures {name} {{", text.index(f"fn {function}"))
    depth, at = 0, start
    while True:
        depth += {"{": 1, "}": -1}.get(text[at], 0)
        if text[at] == "}" and depth == 0:
            return text[start : at + 1]
        at += 1


def words_in(path: str, text: str) -> List[Place]:
    """What a clause names, by the imports of its file."""
    found = re.findall(r"^ghost use (Rattle\.[\w.◌]+)\.\{([^}]*)\};", (TOP / path).read_text(), re.M)
    brought = {item.partition(" as ")[2] or item: (home, item.partition(" as ")[0]) for home, items in found for item in items.split(", ")}
    return [brought[word] for word in NAME.findall(text) if word in brought]


def words_of_clause(name: str) -> List[Place]:
    """What a clause of the page names."""
    return words_in(ALL_CLAUSES[name][0], clause_of(*ALL_CLAUSES[name]))


def with_inner(types: Set[Place]) -> List[Place]:
    """These types of the code, and those that their fields are of."""
    known, left = set(types), list(types)
    while left:
        place = left.pop()
        for word in re.findall(r"\w+", type_line(place)):
            other = inner_type(place, word)
            if other and other not in known:
                known.add(other)
                left.append(other)
    return sorted(known, key=lambda place: place[1])


def inner_type(place: Place, word: str) -> Optional[Place]:
    """A type of one crate that a field of another one of its types is of, where it is a record or has variants and isn't hidden by its model."""
    home = place[0].partition(".declared.")[0]
    found = [path for path in (folder_of(home.split(".")[1]) / "src").glob("**/*.rt") if re.search(ITEM.format(name=word), path.read_text(), re.M | re.S)]
    if word == place[1] or len(found) != 1 or re.search(rf"impl Model for {word}\b", found[0].read_text()):
        return None
    return (f"{home}.declared.{'.'.join(found[0].relative_to(folder_of(home.split('.')[1]) / 'src').with_suffix('').parts)}.{word}", word)


Parts = Iterable[Tuple[str, str]]
"""Headings, each with its modules."""


def code(found: Closure, headings: Parts = PARTS) -> Dict[str, List[List[str]]]:
    """All that is shown, by its heading."""
    parts = {heading: [lines for name in names.split() for lines in of_module(name, found)] for heading, names in headings}
    listed = sum(map(len, parts.values()))
    if listed != len(found.shown):
        raise SystemExit(f"{len(found.shown) - listed} definitions have no part of the page: {sorted({home for home, _ in found.shown})}")
    types = [part for place in with_inner(found.types) for part in wrapped(type_line(place))]
    constants = wrapped(", ".join(map(constant, sorted(found.constants)))) if found.constants else []
    parts["Types and numbers of the code"] = [block for block in (types, constants) if block]
    return parts


def by_module(found: Closure) -> List[List[str]]:
    """All that is shown, in no order of the page."""
    names = sorted({home for home, _ in found.shown})
    return [block for parts in code(found, [(name, name.removeprefix("Rattle.").replace(".", "/")) for name in names]).values() for block in parts]


def size(blocks: Iterable[List[str]]) -> Tuple[int, int, int]:
    """How long the definitions are: lines, columns of the widest one, characters that aren't blank; comments and blank lines aren't counted."""
    lines = [line for block in blocks for line in block if line.strip() and not is_comment(line)]
    return len(lines), max(map(len, lines)), sum(len("".join(line.split())) for line in lines)


HEAD = """# The theorem on one page

*What the program prints of an accepted proof is so in every list of sound histories that has each of your lines of a
service that it names, and each thread that it tells as carried. Or two different texts of a named list have one SHA-256
digest.*

Below are the clauses that say so, which the prover shows of the code, and all that their words mean: each definition
that they use, and each that these use, down to the kit's own functions (the [last list](#what-the-kit-names)). By
`python3 tools/theorem.py`, from the sources. You need read nothing else, and no code: how a proof is checked isn't part
of what is said. One thing of the first part is named and not shown: `hashed_texts`, the list of texts of which two
clash. These are what checking the proof hashes, and what the histories hash: whoever has both can write them down, and
find the two.

`name x = B` defines, a `record` holds where each of its fields does, a line that begins with `--` says in words what
stands below it. `A × B` is "and", `A ⊎ B` "or", `A → B` "if A, then B", `(x : A) → B` "for each x of A", `(x : A) × B`
"some x of A with B", `a ≡ b` equality; `λ x. B` gives B of each x, `p.0` is a pair's first, `x ∷ xs` a list's first and
rest, `[]` an empty one, `xs ++ ys` one list behind another, `Unit` what always holds, `⊥` what never does. `dig` is the
function that hashes (SHA-256), `family` the list of histories: a definition that needs one of them may leave it out
where it is defined, and has it first where it is used. `old` and `new`, behind an argument's name, are its value before
the call and behind it, `now` that of one which the call leaves as it is; `I.told` is what the inputs tell of files,
`S.taken` what the output tells that it has taken. *Anchors* are your lines; a thread is *carried* where no line of
yours binds it. The program prints hops of `precedes` alone: no clause here says that, and the services of hops are
named wherever they stand.

## What it says

Your *lines* are those of the file LINES, or the one of the words NAME STEP HEX: each has a service's name, a step's
number and an authenticator. Let `verify PROOF LINES`, `strict PROOF LINES` or `verify PROOF NAME STEP HEX` end with
status 0. Then a report was printed whole. Take any list of histories, each of which keeps the rules (is *sound*),
whether or not anybody has it. Of a name the first one counts. Let it *have* each of your lines of a service that the
report *names*, and each thread that it tells as `carried`: its history of that service has so many steps, and at that
step this authenticator. Then each of these is so of the list, or two texts clash:

| the report | it names | what is so |
|---|---|---|
| `exists` | the event's service | the event stands there at that step and index; the step has the time that is told, and none where none is told |
| `precedes` | both events' services, and both of each hop | both events stand so, and the hops lead from the first one's step to the step before the second one's; without hops both are of one service, the first at an earlier step, and where both have a time, its isn't above the other's |
| `thread` | the service whose archive it is | it received that thread, with that authenticator, at the step that is told, which isn't above the step of that archive |
| `absent` | the service whose archive it is | none of its steps up to that of the archive received a thread of the other service's step that is told |
| `link` | the service | at that step it has that authenticator |

Hops *lead* where each is a thread that its receiver received at the step told, with the authenticator that the other
service's history in the list has there; each begins at the service to which the way has come, at that step or a later
one. What is printed has one reading: no two reports have one text (`once`).

## Where it says nothing

- **Where no list of sound histories has all these lines**: since one of yours, or a carried one, is a line of no
  sound history, or a carried one contradicts another or yours. (Your own can't contradict each other: a file with two
  lines of one service, or with one that can't be read, ends with status 9. No clause here says that.) An accepted
  report isn't a sign that such a list is there.
- **Where a keeper broke the rules** at the step of your line, or before, so that it shows in the line: then no sound
  history has that line, but for a clash. A rule broken later changes nothing. Of the services that the report doesn't
  name nothing but carried threads is needed: not that of a received thread, nor that of an absent one.
- **Whose lines they are.** A line is a name and digits. That the service of that name, or anybody, made it, and from
  whom you have it, stands nowhere here. A carried line is told by the service that received it, and by nobody else.
- **Time.** That hops lead says what stands in what: the later step holds what the earlier one's authenticator stands
  for. It doesn't say that the first was made first, nor when. A time is what its service claimed.
- **Whether a record is true**, and who wrote it.
- **Where the status isn't 0**: that the claim of a rejected proof is false, or that it is true.
- **Real files.** The clause of `run` speaks of inputs that tell the bytes of files, and of an output that tells what it
  has taken, as those in memory do. That the program over real files prints what it would print over these, tests show.
- **That nobody finds a collision.**

What else is proved is in [claims.md](claims.md), what is trusted in [trust.md](trust.md).
"""


MORE_HEAD = """## Bounds, and histories that are taken over

This second part says the same of what `checkmap` and `adopt` write. It stands on the first, whose definitions aren't
shown again: the first part has {first} lines of clauses and definitions, this one {more} more. What one clause means,
down to the kit, is at most 400 lines; those of each are what `python3 tools/theorem.py --check` tells.

**Bounds.** Let `checkmap LOW HIGH LINES` end with status 0. Then the text of three numbers was printed whole: `low`,
`high`, which may be `none`, and `upto`. It names no service. Which step of which service it is of, and which peer,
the first bytes of LOW name (`low_map`). Take any list of sound histories that has each of your lines of the service
or of the peer. Then the service has that step, the peer has a step `upto`; `low` is the greatest step of the peer in
threads that the service received before that step, or 0; `high` is the least step of the peer up to `upto` that
received a thread of the service of that step or of a later one, or `none`. Or two texts clash: of `hashed_by_maps`,
those that the histories and checking both files hash. What is printed has one reading (`map_once`), and LOW names one
step and peer (`front_once`). HIGH may be of any step of the peer: `upto` tells which.

**Taking over.** Let `adopt HISTORY LINES PROOF..` end with status 0. Then the bytes that were written are the file of
a sound history, which is the same as that of HISTORY up to its own last step. And in every list of sound histories that
has the thread of that last step, the history of its name has the same contents, times and archives up to there. Or two
texts clash, of those that it and the list hash. `Spells history_layout` is named and not shown: that bytes are a
history's file. A file is of one history (`history_laws` of tw_history: `format`).

**Who received it.** Each PROOF shows that a thread of the history that was written was received, and one of them that
the thread of its last step was (`ShowsReceived`). The first bytes of PROOF name the service `by` that received it, and
one of its steps. Behind them, where `way` ends, stands the thread: its service, step and authenticator; and the step
that received it. A line of yours is of `by`, at the step named first or a later one. Take any list of sound histories
that has each of your lines of `by`. Then its history of `by` received this very thread at the step that is told, which
isn't above the one named first. Or two texts clash, of those that the list and checking PROOF hash. As above nothing is
said where no such list is there, nor of what the list's history of the thread's own service has. How long `way` is
isn't said here: `adopted` of `run` says it of PROOF as the verifier reads it.

Nothing is said of whether the keeper of that name made these steps, or any other: a service may have received a
thread that its keeper never told. Which service received each thread isn't written by `adopt`; `verify PROOF LINES`
prints it.
"""


def fenced(lines: Iterable[str]) -> List[str]:
    """Lines as a block of code."""
    return ["```", *lines, "```", ""]


def contract(name: str) -> List[str]:
    """A clause, under the name of its function."""
    path, function, _ = ALL_CLAUSES[name]
    lines = [line.strip() if at == 0 else "    " + line.strip() for at, line in enumerate(clause_of(*ALL_CLAUSES[name]).split("\n"))]
    return [f"-- of `{function}` ({path})", *(part for line in lines for part in wrapped(line))]


def meant_by(names: Iterable[str]) -> Closure:
    """What these clauses mean."""
    return closure([place for name in names for place in words_of_clause(name)], UNSHOWN)


def clauses_and_code(names: Iterable[str], blocks_by: Dict[str, List[List[str]]], heads: str) -> List[str]:
    """Clauses, and definitions under headings of this depth."""
    lines = [f"{heads} The clauses", "", *fenced(part for name in names for part in [*contract(name), ""])]
    for heading, blocks in blocks_by.items():
        if blocks:
            lines += [f"{heads} {heading}", "", *fenced([line for block in blocks for line in [*block, ""]][:-1])]
    return lines


def lines_of_part(names: Iterable[str], blocks_by: Dict[str, List[List[str]]]) -> int:
    """How many lines the clauses and definitions of a part are."""
    return size([*map(contract, names), *(block for blocks in blocks_by.values() for block in blocks)])[0]


# What stands before the list of texts.
TEXTS = """\
`hashed_texts`, which the first part names. `family_texts` stands in crates/tw_base/specs/history/Family.antt, and
`proof_texts` in crates/tw_chain/specs/Accepting.antt."""


def texts_of_proof() -> List[str]:
    """The definitions of the list of texts of a proof, with the words above them."""
    text = (TOP / "crates/tw_plain/specs/Hashed.antt").read_text()
    return text[text.index("module _") : text.index("  -- the texts that checking both map files")].rstrip("\n").split("\n")


def page() -> str:
    """The page."""
    first, both = meant_by(CLAUSES), meant_by(ALL_CLAUSES)
    shown_first, shown_more = code(first), code(both.beyond(first), MORE_PARTS)
    counts = {"first": lines_of_part(CLAUSES, shown_first), "more": lines_of_part(MORE_CLAUSES, shown_more)}
    lines = [HEAD, *clauses_and_code(CLAUSES, shown_first, "##"), MORE_HEAD.format(**counts), *clauses_and_code(MORE_CLAUSES, shown_more, "###")]
    lines += ["## The list of texts", "", TEXTS, "", *fenced(texts_of_proof())]
    lines += ["## What the kit names", "", *textwrap.wrap(kit_names(both), 120, break_long_words=False, break_on_hyphens=False), ""]
    return "\n".join(lines).replace("\n\n```\n", "\n```\n")


def sizes() -> Dict[str, Tuple[int, int, int]]:
    """How long what each clause means is: itself, and the definitions that it uses."""
    return {name: size([contract(name), *by_module(meant_by([name]))]) for name in ALL_CLAUSES}


# ---- how much each clause of `run` means

BEGIN, END = "<!-- what the clauses mean, by tools/theorem.py -->", "<!-- end of what the clauses mean -->"


def clauses_of_run() -> List[str]:
    """The names of the clauses of `run`, in their order."""
    path, function, _ = CLAUSES["run"]
    text = (TOP / path).read_text()
    contract_of = text[text.index(f"pub fn {function}<") :].partition("\n{\n")[0]
    return re.findall(r"^ *ensures (\w+) ", contract_of, re.M)


def meaning(name: str) -> Closure:
    """All that a clause of `run` means."""
    path, function, _ = CLAUSES["run"]
    return closure(words_in(path, clause_of(path, function, name)), UNSHOWN if name.startswith("plain") else ())


def table() -> str:
    """How many lines of definitions each clause of `run` means, of how many modules, without comments."""
    rows = ["| clause of `run` | lines | modules |", "|---|---|---|"]
    for name in clauses_of_run():
        shown_places = meaning(name).shown
        found = [home.definition(place[1]) for place in shown_places for home in [module(place[0])] if home]
        rows.append(f"| `{name}` | {sum(len(each.code()) for each in found):,} | {len({home for home, _ in shown_places})} |")
    return "\n".join(rows)


def with_table(text: str) -> str:
    """The page about trust with its table."""
    front, _, rest = text.partition(BEGIN)
    return f"{front}{BEGIN}\n{table()}\n{END}{rest.partition(END)[2]}"


def too_long() -> List[str]:
    """The clauses that mean more than fits on the page."""
    most = (MOST_LINES, MOST_COLUMNS, MOST_CHARACTERS)
    return [f"  what `{name}` means has {told}, at most {most} are allowed" for name, told in sizes().items() if any(a > b for a, b in zip(told, most))]


def stale() -> List[str]:
    """The pages that aren't what the sources say."""
    made = {PAGE: page(), TRUST: with_table(TRUST.read_text())}
    return [f"  {path.relative_to(TOP)} isn't what the sources say: `python3 tools/theorem.py`" for path, text in made.items() if not path.exists() or path.read_text() != text]


def main() -> int:
    """Writes the page and the table, or checks them."""
    words = reader_of_words(__doc__)
    words.add_argument("--check", action="store_true", help="writes nothing; tells what differs, and the sizes")
    if not words.parse_args().check:
        PAGE.write_text(page())
        TRUST.write_text(with_table(TRUST.read_text()))
        return 0
    wrong = too_long() + stale()
    print(*(f"{name}: {lines} lines, {columns} columns, {characters} characters" for name, (lines, columns, characters) in sizes().items()), *wrong, sep="\n")
    return bool(wrong)


if __name__ == "__main__":
    run_script(main)
