#!/usr/bin/env python3
"""Counts what has two names: the definitions of `specs`, and the functions of the code, that have one body and not one name.

Bodies are compared without their comments, their white space, the definition's own name, and the names that are bound in them: those stand as numbers.
A definition is compared with what it is of, its type, and a function with its parameters. What one word says, or a call of one function,
is passed over. Types of code that stand in two files under one name are counted beside. `python3 tools/same_bodies.py` prints all three.
"""

import collections
import re

from command_line import reader_of_words, run_script
from crates import TOP, list_files

# The fewest words and signs of a body of a definition, and of a function.
LEAST, LEAST_IN_CODE = 8, 14

# Small letters, and no names that are bound.
CONSTRUCTORS = {"zero", "suc", "true", "false", "inl", "inr", "if", "then", "else", "let", "in", "do", "refl", "mut", "ref", "self", "record", "cond"}

WORDS = re.compile(r"[\w'-]+(?:\.[\w]+)*|\S", re.UNICODE)
BEGINS = re.compile(r"^( *)(?:(?:abbrev|unfoldable|pub) +)*(record |data )?([^\s:({]+)(?=[\s:({])")
MODULE = re.compile(r"^ *(?:pub )?(?:module|mod|use|open)\b|^ *pub use\b")
FUNCTION = re.compile(r"^( *)(?:pub(?:\(\w+\))? )?fn (\w+)(.*?)^\1\{\n(.*?)^\1\}$", re.M | re.S)
TYPE = re.compile(r"^pub(?:\(\w+\))? (?:struct|enum) (\w+)", re.M)


def numbered(words, bound):
    """The words with each bound name as the number of its first place."""
    order = {}
    out = []
    for word in words:
        head, dot, rest = word.partition(".")
        out.append(f"#{order.setdefault(head, len(order))}{dot}{rest}" if head in bound else word)
    return tuple(out)


def is_bound(word):
    """Whether a word may be the name of a bound variable."""
    return re.fullmatch(r"[a-zà-ÿ_][\w'-]*", word) and word not in CONSTRUCTORS


def without_binders(line):
    """A type with `(a b : T) →` as `T → T →`, and the names that it bound."""
    bound = set()

    def plain(found):
        names = found[2].split()
        bound.update(names)
        return f"{found[1]}{found[3]}{')' if found[1] == '(' else '}'}" * len(names)

    return re.sub(r"([({])((?:[a-z_][\w'-]*\s+)*[a-z_][\w'-]*) : ((?:[^(){}]|\([^()]*\))*)[)}]", plain, line), bound


def blocks(text):
    """The definitions of a module: the name, the line of its type, and the lines of its body, those of its record or data."""
    lines = [line.split("--")[0].rstrip() for line in text.splitlines()]
    at = 0
    while at < len(lines):
        head = BEGINS.match(lines[at])
        if not head or MODULE.match(lines[at]) or " pub " not in f" {lines[at]}":
            at += 1
            continue
        indent, end = len(head[1]), at + 1
        own = re.compile(rf" {{{indent}}}{re.escape(head[3])}(?=\s)")
        while end < len(lines) and lines[end].strip() and (own.match(lines[end]) or len(lines[end]) - len(lines[end].lstrip()) > indent):
            end += 1
        yield head[3], bool(head[2]), lines[at:end]
        at = end


def spec_bodies(text):
    """Each definition of a module with its body as it is compared."""
    for name, is_block, lines in blocks(text):
        kind, bound = without_binders(lines[0].split(name, 1)[1])
        body = lines[1:]
        if not is_block and (not body or "=" not in " ".join(body)):
            continue
        for line in body:
            left = line.split(" = ")[0] if re.match(rf"\s*{re.escape(name)}\s", line) else ""
            bound.update(word for word in WORDS.findall(left) if is_bound(word) and word != name)
            for binder in re.findall(r"[λ∃](.*?)\.\s", line):
                bound.update(word for word in re.findall(r"[\w'-]+", binder.split(":")[0]) if is_bound(word))
            bound.update(re.findall(r"(?:let )?(\w+)(?: : [^=]*)? (?:=|←|<-) ", line) if not is_block else [])
            bound.update(word for group in re.findall(r"[({]([a-z][^:(){}]*) : ", line) for word in group.split() if is_bound(word))
        words = WORDS.findall(" ".join(re.sub(rf"(?<![\w.]){re.escape(name)}(?![\w'])", "◊", line) for line in body))
        if len(words) >= LEAST:
            yield name, numbered(WORDS.findall(kind) + ["="] + words, bound - {name})


def code_bodies(text):
    """Each function of a file with its body as it is compared."""
    for _, name, head, body in FUNCTION.findall(text):
        kept = "\n".join(line.split("//")[0] for line in f"{head.split('ensures')[0].split('requires')[0]}{{{body}".splitlines())
        bound = set(re.findall(r"(\w+): ", kept)) | set(re.findall(r"let (?:mut )?(\w+)", kept)) | set(re.findall(r"for (\w+) in", kept))
        for group in re.findall(r"\|([\w, ]+)\||[(]([a-z_]\w*)[)] (?:if|=>)|(?:^|\n)\s*([a-z_]\w*) =>", kept):
            bound.update(word for part in group for word in re.findall(r"\w+", part))
        words = WORDS.findall(kept)
        if len(WORDS.findall(body)) >= LEAST_IN_CODE:
            yield name, numbered(words, {word for word in bound if is_bound(word)})


def several(places):
    """Those that stand in more than one place."""
    return sorted(sorted(where) for where in places.values() if len(where) > 1)


def find_twice():
    """What has one body and two names in specs, and in code; and the names of types in two files of code."""
    specs, code, types = (collections.defaultdict(set) for _ in range(3))
    for place in list_files("crates"):
        path = TOP / place
        if place.split("/")[1].endswith("tests"):
            continue
        short = place.removeprefix("crates/")
        if "/specs/" in place and "/contracts/" not in place:
            for name, body in spec_bodies(path.read_text()):
                specs[body].add((name, short))
        if "/src/" in place and place.endswith(".rt"):
            text = path.read_text()
            for name, body in code_bodies(text):
                code[body].add((name, short))
            for name in TYPE.findall(text):
                types[name].add((name, short))
    return several(specs), several(code), several(types)


def name_places(where):
    """The names, each with its file."""
    return ", ".join(f"{name} ({place})" for name, place in where)


def main():
    """Prints what was found."""
    reader_of_words(__doc__).parse_args()
    for title, places in zip(("definitions with one body", "functions with one body", "names of two types of code"), find_twice()):
        print(f"{len(places)} {title}")
        for where in places:
            print(f"  {name_places(where)}")


if __name__ == "__main__":
    run_script(main)
