#!/usr/bin/env python3
"""Tells what each public clause says, in words: a table a crate, from above down.

    python3 tools/claims.py [CRATE ..]              prints those of these crates, or of all
    python3 tools/claims.py [CRATE ..] --to FILE    writes them into a file

A claim is written once, in the source: as a plain comment right above the clause, in the contract of a public function; docs/claims.md, by hand, has the
theorems for which they are there. First come the crates that the commands and the library for C stand on, then the others, and the objects for tests. A
claim that begins a sentence with `Status N of` has a row for each such sentence and what follows it. One that stands word for word above several clauses
has one row, which names the others.

Where a clause leaves it to a record of `specs` to say what it says, the comments of the record and of its fields are claims too: no comment stands
above the clause, or its term begins with a definition that has the record. They stand once, behind the first function that says the record;
its first row names all that do.
"""

import re
from functools import lru_cache
from itertools import groupby
from pathlib import Path
from typing import Dict, Iterable, Iterator, List, NamedTuple, Tuple

import declared
from command_line import run_script
from crates import below_all, height, read_crates

TOP = Path(__file__).resolve().parent.parent

HEAD = """# What each clause says

By `python3 tools/claims.py`. Each row is the comment that stands above the clause, in the file of `crates` that is named behind the function; where a row and its
clause disagree, the clause counts. A clause without a row says what a constructor or an accessor gives, a size or range, that something else stays as it was, or what
an object for tests does; or it says what a record of definitions says, whose own comments have rows then, once, with the functions that say it. What several
clauses say in the same words stands once, with the names of the others. The words are those of docs/claims.md and docs/definitions.md.
"""
REST = "# What no command and no library reaches"
USED = {"timeweave", "timeweave_c"}
FOR_TESTS = re.compile(r"(Mem[A-Z]\w*|Weak)::")
STATUS = re.compile(r"(?<=[.:]) (?=Status \d of )")

# An import of definitions; a record with the comment above it, and its fields, each with the comment above it and the name that its type begins with.
IMPORT = re.compile(r"use Rattle\.(\w+)\.specs\.([\w.]+)\.\{([^}]*)\}")
RECORD = re.compile(r"((?:^ *--.*\n)*)^( *)pub record ([\w'-]+).*\n((?:^\2 +\S.*\n)*)", re.M)
FIELD = re.compile(r"((?:^ *--.*\n)*)^ *pub ([\w'-]+) : ([\w'-]*)", re.M)


class Row(NamedTuple):
    """A claim, and the other places, each a crate and a claim, at which it stands word for word."""

    claim: declared.Claim
    others: List[Tuple[str, declared.Claim]]


class Record(NamedTuple):
    """A record of `specs`: its name, its claims, and the records that its fields are of."""

    name: str
    claims: List[declared.Claim]
    inner: List["Record"]


@lru_cache(maxsize=None)
def records(path: Path) -> Dict[str, Record]:
    """The records of a file of `specs`, by name. Those that fields are of stand before them in the same file."""
    known: Dict[str, Record] = {}
    for above, _, name, fields in RECORD.findall(path.read_text()):
        known[name] = Record(name, list(read_claims(path, name, above, fields)), [known[of] for _, _, of in FIELD.findall(fields) if of in known])
    return known


def read_claims(path: Path, name: str, above: str, fields: str) -> Iterator[declared.Claim]:
    """The claims of a record: that of its own comment, and those of its fields'. A comment is of the fields below it up to the next one."""
    groups: List[Tuple[str, List[str]]] = [(above, [])]
    for comment, field, _ in FIELD.findall(fields):
        groups += [(comment, [])] * bool(comment)
        groups[-1][1].append(field)
    for comment, names in groups:
        words = " ".join(line.strip(" -") for line in comment.splitlines())
        yield declared.Claim(path, name, ", ".join(names), f"{words[:1].upper()}{words[1:]}.")


def said(clause: declared.Claim) -> List[Record]:
    """The records with comments of fields that a clause says: the one that its term begins with, or those that stand in the definition that it
    begins with."""
    for crate, module, names in IMPORT.findall(clause.file.read_text()):
        path = TOP / "crates" / crate / "specs" / f"{module.replace('.', '/')}.antt"
        if clause.begins in names.split(", ") and path.exists():
            known = records(path)
            lines = re.findall(rf"^ *{clause.begins} .*", path.read_text(), re.M)
            words = [clause.begins] if clause.begins in known else re.findall(r"[\w'-]+", " ".join(lines))
            return [known[word] for word in words if word in known and len(known[word].claims) > 1]
    return []


def is_short(clause: declared.Claim) -> bool:
    """Whether a clause leaves it to its records to say what it says: no comment stands above it, or its term begins with no record."""
    return not clause.words or all(record.name != clause.begins for record in said(clause))


def with_records(clauses: List[declared.Claim]) -> Iterator[declared.Claim]:
    """The claims of clauses, each with those of the records that it says, where some clause leaves it to them."""
    users: Dict[str, List[declared.Claim]] = {}
    for clause in clauses:
        for record in said(clause):
            users.setdefault(record.name, []).append(clause)

    def of_record(record: Record) -> Iterator[declared.Claim]:
        known = users.pop(record.name, [])
        for other in record.inner:
            yield from of_record(other)
        names = ", ".join(f"`{clause.function}`" for clause in known)
        first = record.claims[0]
        yield first._replace(words=f"{first.words} *Said by* {names}." if known else first.words)
        yield from record.claims[1:]

    for _, group in groupby(clauses, lambda clause: (clause.file, clause.function)):
        of_function = list(group)
        yield from (clause for clause in of_function if clause.words)
        for record in (record for clause in of_function for record in said(clause)):
            if any(map(is_short, users.get(record.name, []))):
                yield from of_record(record)


def heading(name: str) -> List[str]:
    """The head of a crate's table: its name, and what its root file says that it is."""
    return [f"## {name}", "", declared.root_words(name), ""]


def place(row: Row, crate: str, claim: declared.Claim) -> str:
    """Another place of a row's claim: the function, with what else isn't that of the row."""
    besides = [f"`{claim.clause}`"] * (claim.clause not in ("", row.claim.clause)) + [f"in `{crate}`"] * (f"/{crate}/" not in str(row.claim.file))
    return f"`{claim.function}`" + (f" ({', '.join(besides)})" if besides else "")


def cells(row: Row) -> Iterator[Tuple[str, str]]:
    """The cells of a claim's rows: the clause's name, which stands in the first one, and the words."""
    sentences, clause = STATUS.split(row.claim.words), ", ".join(f"`{name}`" for name in row.claim.clause.split(", ") if name)
    if row.others:
        sentences[-1] += f" *So too at* {', '.join(place(row, *other) for other in row.others)}."
    yield from ((clause if number == 0 else "", words) for number, words in enumerate(sentences))


def table(rows: Iterable[Row]) -> Iterator[str]:
    """A crate's claims as the rows of a table; a function is named in its first row."""
    yield "| function | clause | what it says |"
    yield "|---|---|---|"
    for (file, function), group in groupby(rows, lambda row: (row.claim.file, row.claim.function)):
        cell = f"`{function}`, {file.relative_to(TOP / 'crates')}"
        for row in group:
            for clause, words in cells(row):
                yield f"| {cell} | {clause} | {words} |".replace("|  |", "| |").replace("|  |", "| |")
                cell = ""


def claims(is_rest: bool) -> Iterator[Tuple[str, declared.Claim]]:
    """The claims of the crates that commands and the library reach, or of the others, from above down."""
    known = read_crates()
    reached = {name for user in USED & known.keys() for name in {user} | below_all(user, known)}
    for name in sorted(known, key=lambda name: (-height(name, known), name)):
        of_part = [clause for clause in declared.crates()[name].clauses if is_rest == (name not in reached or bool(FOR_TESTS.match(clause.function)))]
        yield from ((name, claim) for claim in with_records(of_part))


def rows(is_rest: bool) -> List[Tuple[str, Row]]:
    """The rows of a part with their crates: each claim where it stands first."""
    found: Dict[str, List[Tuple[str, declared.Claim]]] = {}
    for name, claim in claims(is_rest):
        found.setdefault(claim.words, []).append((name, claim))
    return [(places[0][0], Row(places[0][1], places[1:])) for places in found.values()]


def tables(names: List[str], is_rest: bool) -> Iterator[str]:
    """The tables of these crates that claim something, or of all."""
    for name, group in groupby(rows(is_rest), lambda row: row[0]):
        if not names or name in names:
            yield from [*heading(name), *table([row for _, row in group]), ""]


def page(names: List[str]) -> str:
    """The tables of these crates, or of all."""
    reached, rest = list(tables(names, False)), list(tables(names, True))
    return "\n".join([HEAD, *reached, *([REST, "", *rest] if rest else [])])


if __name__ == "__main__":
    run_script(lambda: declared.print_page(page, __doc__))
