#!/usr/bin/env python3
"""Writes into each wrong body of the gate, crates/*/must-fail, what it leaves out: the modules and functions of its crate on which what it turns
doesn't stand. Where the gate tries several of a crate, none leaves out anything: it proves the crate once, and tries each over that.

    python3 tools/leave_out.py [NAME ..]      into those of these crates, or of all
    python3 tools/leave_out.py --list [..]    writes nothing, and tells how many functions each leaves in

The prover checks a crate from nothing for its only wrong body. A function is proved from the contracts of what it calls, so what it doesn't reach has no say in
whether it meets its own: that gets `#[cfg(test)]`, by which it isn't compiled, and its name goes from the lists of `use`. It is found by names: what is
turned, what a definition, a lemma or an impl of a trait names, and what these name in turn stays. Where too little stays, the gate mostly says that the edit can't be
read, but may take it for refused: `python3 tools/wrong_bodies.py --kept` shows whether what stays is proved where no body is wrong.
"""

import re
import sys
from collections import defaultdict
from pathlib import Path

from command_line import reader_of_words, run_script
from crates import TOP, read_crates

# The line of an edit behind which stands what it leaves out.
BEGINS = "what it leaves out, by tools/leave_out.py:"

# Where a larger share of the functions stays, nothing is left out.
MOST = 3 / 4

SEES = r"(?:pub(?:\([a-z]+\))? )?"
MODULE = re.compile(rf"^{SEES}mod (\w+);", re.M)
HEAD = re.compile(rf"( *){SEES}(?:const )?(?:final )?(?:unsafe )?(?:extern \"C\" )?fn (\w+)[<(]")
BLOCK = re.compile(r"(?:impl|(?:pub(?:\([a-z]+\))? )?trait)\b")
GENERIC = re.compile(r"^impl(?:<(?:[^<>]|<[^<>]*>)*>)? *")
DECLARED = re.compile(rf"^{SEES}(?:struct|enum|trait|const|static|type|union) (\w+)", re.M)
IMPL = re.compile(r"^impl(?:<[^{]*?>)? ([^{;]*?) for ([\w:]+)", re.M)
USE = re.compile(rf"^{SEES}use [^;]*;", re.M)
CHANGE = re.compile(r"^(file|old|new): ?(.*)$", re.M)


class Function:
    """A function of a crate: where it stands, its lines, the line with which its body begins, the first line of the block that it is a method of, and
    whether it stays where its module does: as one of a trait or of an impl of another crate's trait; as a method or one of a cycle of calls that has files of
    proof, which the check wants to be of something; or since its contract has a text in quotes, which what isn't compiled mayn't have."""

    def __init__(self, module, name, lines, span, block):
        self.module, self.name, self.span, self.block = module, name, span, block or ""
        head, opens = HEAD.match(lines[span[1]]), HEAD.match(lines[span[1]])[1] + "{"
        begins = [i for i in range(*span[1:]) if lines[i].startswith(opens)] + [i for i in range(*span[1:]) if lines[i].endswith("{")]
        self.body = begins[0] if begins else span[1]
        contract = "".join(lines[span[1] : self.body]).replace('extern "C"', "")
        self.is_bound = "trait " in self.block or '"' in contract
        kind = re.match(r"(?:&|\w+::)*(\w+)", GENERIC.sub("", self.block).split(" for ")[-1])
        self.kind = kind[1] if kind else None
        self.head = head[0]
        self.text = code("\n".join(lines[span[0] : span[2] + 1]))
        self.proofs = []


def code(text):
    """A text without its comments."""
    return re.sub(r"//.*", "", text)


def called(text):
    """What a text of code may call: each name with what stands before its `::`, with a dot where it is a method, or with nothing; a function may
    be given to a call, too."""
    found = {(kind, name) for kind, name in re.findall(r"\b(\w+)::(?:<[^()]*>::)?(\w+)", text)}
    found |= {(".", name) for name in re.findall(r"\.(\w+)(?:::<[^()]*>)?\(", text)}
    return found | {("", name) for name in re.findall(r"(?<![.:\w])(\w+)(?:::<[^()]*>)?\(", text) + re.findall(r"(?<![.:\w])(\w+)(?=[,)])", text)}


def functions_of(module, text):
    """The functions of a file, in its order."""
    lines, block, at, found = text.split("\n"), None, 0, []
    while at < len(lines):
        block = lines[at] if BLOCK.match(lines[at]) else None if lines[at] == "}" else block
        head = HEAD.match(lines[at])
        if head and head[1] in ("", "    "):
            first = at
            while first and re.match(rf"{head[1]}(//|#\[)", lines[first - 1]):
                first -= 1
            last = next((i for i in range(at, len(lines)) if lines[i] in (head[1] + "}", head[1] + "{}") or i == at and lines[i].endswith(("{}", ";"))), len(lines) - 1)
            found.append(Function(module, head[2], lines, (first, at, last), block if head[1] else None))
            at = last
        at += 1
    return found


class Crate:
    """A crate's modules by their paths, with what each declares, its functions, and the proofs of each."""

    def __init__(self, name):
        self.name, self.folder = name, TOP / "crates" / name
        root = self.folder / "src" / ("lib.rt" if (self.folder / "src/lib.rt").exists() else "main.rt")
        self.files = {}
        self.walk((), root, root.parent)
        texts = {module: path.read_text() for module, path in self.files.items()}
        self.functions = [function for module, text in texts.items() for function in functions_of(module, text)]
        self.named = defaultdict(list)
        for function in self.functions:
            self.named[function.name].append(function)
        own = {name for text in texts.values() for name in re.findall(rf"^{SEES}trait (\w+)", text, re.M)}
        for function in self.functions:
            function.is_bound |= self.trait_of(function) not in {None, *own}
        self.declared = {module: set(DECLARED.findall(text)) for module, text in texts.items()}
        self.impls = {module: {kind.split("::")[-1] for _, kind in IMPL.findall(code(text))} for module, text in texts.items()}
        self.rest = {module: self.outside(module, text) for module, text in texts.items()}
        self.always = [path.read_text() for path in sorted(self.folder.glob("specs/**/*.antt"))]
        self.give_proofs()

    def trait_of(self, function):
        """The trait of whose impl a function is one, or nothing."""
        found = re.match(r"(?:\w+::)*(\w+).* for ", GENERIC.sub("", function.block))
        return found[1] if found else None

    def walk(self, module, path, folder):
        self.files[module] = path
        for name in MODULE.findall(path.read_text()):
            self.walk((*module, name), folder / f"{name}.rt", folder / name)

    def outside(self, module, text):
        """The code of a file that stands in no function, without its lists of `use` and the first lines of impls of traits."""
        within = {line for it in self.functions if it.module == module for line in range(it.span[0], it.span[2] + 1)}
        lines = [line for number, line in enumerate(text.split("\n")) if number not in within and not re.match(r"impl\b.* for ", line)]
        return USE.sub("", code("\n".join(lines)))

    def module_of(self, parts):
        """The lowest module that a path leads through."""
        return next((parts[:size] for size in range(len(parts), 0, -1) if parts[:size] in self.files), ())

    def give_proofs(self):
        """Gives each function the files that prove it; those of lemmas stay, as definitions do."""
        for path in sorted(self.folder.glob("proofs/**/*.antt")):
            parts = path.relative_to(self.folder / "proofs").with_suffix("").parts
            module = self.module_of(parts)
            own = parts[len(module) :]
            owners = [it for part in own for it in self.named[part.lstrip("+")] if it.module == module]
            for owner in owners:
                owner.proofs.append(path.read_text())
                owner.is_bound |= "+" + owner.name in own or owner.block != ""
            if not owners:
                self.always.append(path.read_text())

    def cited(self, text):
        """The functions that a text of proofs or definitions cites, and the modules of the types."""
        paths = re.findall(rf"Rattle\.{self.name}\.(specs\.declared|specs\.contracts|proofs)\.([\w.+]+)", text)
        parts = [(kind, tuple(part.lstrip("+") for part in path.split("."))) for kind, path in paths]
        names = {part for kind, path in parts if kind != "specs.declared" for part in path}
        return names & set(self.named), {self.module_of(path) for kind, path in parts if kind == "specs.declared"}


class Kept:
    """What of a crate stays: functions and modules, as far as what is turned leads."""

    def __init__(self, crate, turned):
        self.crate, self.functions, self.modules = crate, set(turned), {()}
        for text in crate.always:
            self.cite(text)
        before = None
        while before != (before := (len(self.functions), len(self.modules))):
            self.follow()

    def cite(self, text):
        names, modules = self.crate.cited(text)
        self.modules |= modules
        self.name(names)

    def name(self, names):
        self.functions.update(it for name in names for it in self.crate.named.get(name, ()))

    def call(self, text):
        """Lets what a text of code may call stay."""
        for kind, name in called(text):
            for it in self.crate.named.get(name, ()):
                if it.block and (kind in (".", "Self") or kind == it.kind) or not it.block and kind != "." and not kind[:1].isupper():
                    self.functions.add(it)

    def follow(self):
        """Goes one step on: to what the kept functions and the rest of the kept modules name."""
        crate = self.crate
        for function in list(self.functions):
            self.modules.update(function.module[:size] for size in range(len(function.module) + 1))
        self.functions.update(it for it in crate.functions if it.is_bound and it.module in self.modules)
        texts = [f"{function.block}\n{function.text}" for function in self.functions] + [crate.rest[module] for module in self.modules]
        for text in [*texts, *(proof for function in self.functions for proof in function.proofs)]:
            self.cite(text)
        words = {word for text in texts for word in re.findall(r"\w+", text)}
        for text in texts:
            self.call(text)
        blocks = {(it.module, it.block) for it in crate.functions if crate.trait_of(it) and (it in self.functions or crate.trait_of(it) in words)}
        self.functions.update(it for it in crate.functions if (it.module, it.block) in blocks and it.module in self.modules)
        known = {name for module in self.modules for name in crate.declared[module]}
        for module in crate.files:
            if crate.declared[module] & words or crate.impls[module] & known:
                self.modules.update(module[:size] for size in range(len(module) + 1))


class Edit:
    """The files of a crate as an edit makes them, and its changes of each."""

    def __init__(self, crate, text):
        self.crate, self.texts, self.changes = crate, {}, defaultdict(list)
        for word, said in CHANGE.findall(text):
            if word == "file":
                path = crate.folder / said
            elif word == "old":
                old = said
            elif not self.change(path, old, said):
                sys.exit(f"{crate.name}: `{old}` doesn't stand once in {path.name}")
        self.changes.clear()

    def text(self, path):
        return self.texts.setdefault(path, path.read_text())

    def change(self, path, old, new):
        """Changes a text that stands once in its file; answers whether it does."""
        if self.text(path).count(old) != 1:
            return False
        self.texts[path] = self.texts[path].replace(old, new)
        self.changes[path].append((old, new))
        return True

    def hide(self, path, line):
        """Leaves out what begins with a line."""
        indent = len(line) - len(line.lstrip())
        return self.change(path, line, f"{line[:indent]}#[cfg(test)] {line[indent:]}")

    def lines(self):
        return [
            line
            for path, changes in self.changes.items()
            for line in [f"file: {path.relative_to(self.crate.folder)}", *(said for old, new in changes for said in (f"old: {old}", f"new: {new}"))]
        ]


def turned_by(crate, text):
    """The functions that the wrong body of an edit turns; what it brings by `use` turns none."""
    found, path = [], None
    for word, said in CHANGE.findall(text):
        path = crate.folder / said if word == "file" else path
        if word == "old":
            source = path.read_text()
            line = source[: source.index(said)].count("\n")
            if re.match(rf"{SEES}use ", source.split("\n")[line]):
                continue
            inside = [it for it in crate.functions if crate.files[it.module] == path and it.span[0] <= line <= it.span[2]]
            if not inside:
                return None
            found += inside
    return found


def without(line, names):
    """A line of a list of `use` without these names."""
    before, brace, rest = line.rpartition("{") if "{" in line else (re.match(" *", line)[0], "", line.strip())
    inner, closing, behind = rest.partition("}")
    parts = [part.strip() for part in inner.split(",") if part.strip()]
    left = [part for part in parts if re.sub(r" as .*", "", part).split("::")[-1] not in names]
    if left == parts:
        return line
    return before + brace + (", ".join(left) if closing else " ".join(part + "," for part in left)) + closing + behind


def trim_uses(edit, module, kept, names):
    """Takes what goes from the lists of `use` of a module that stays."""
    crate, path = edit.crate, edit.crate.files[module]
    for use in USE.findall(edit.text(path)):
        first = use.split("\n")[0]
        begin = [part for part in re.sub(rf"^{SEES}use ", "", use).split("{")[0].strip(" ;").split("::") if part not in ("crate", "self", "super", "")]
        ways = [place + tuple(begin[:size]) for size in range(1, len(begin) + 1) for place in ((), module, module[:-1])]
        inner = re.sub(r"\s+", " ", use.partition("{")[2].rpartition("}")[0] if "{" in use else use.strip(";")).split(",")
        said = [re.sub(r" as .*", "", part).split("::")[-1].strip() for part in inner if part.strip()]
        is_gone = any(way in crate.files and way not in kept.modules for way in ways) or begin and begin[0] not in read_crates() and all(it in names for it in said)
        if is_gone:
            edit.hide(path, first)
            continue
        for line in use.split("\n"):
            new = without(line, names)
            if new != line:
                edit.change(path, line, new)


def leave_out(crate, text, more=()):
    """What an edit leaves out, as its lines, and how many functions it leaves in; or None where it turns no function."""
    turned = turned_by(crate, text)
    if turned is None:
        return None
    kept, edit = Kept(crate, [*turned, *more]), Edit(crate, text)
    if len(kept.functions) > MOST * len(crate.functions):
        return [], len(crate.functions)
    gone = [module for module in crate.files if module not in kept.modules]
    for module in gone:
        path = crate.files[module[:-1]]
        if module[:-1] in kept.modules:
            edit.hide(path, next(line for line in edit.text(path).split("\n") if re.match(rf"{SEES}mod {module[-1]};", line)))
    left = [it for it in crate.functions if it.module in kept.modules and it not in kept.functions]
    blocks = {(it.module, it.block): it for it in left if crate.trait_of(it)}
    twice = [it for it in blocks.values() if not edit.hide(crate.files[it.module], it.block)]
    twice += [it for it in left if not crate.trait_of(it) and not edit.hide(crate.files[it.module], it.head)]
    if twice:
        return leave_out(crate, text, [*more, *twice])
    staying = {it.name for it in kept.functions}
    names = {it.name for it in left if not it.block} | {name for module in gone for name in crate.declared[module]}
    names |= {it.name for it in crate.functions if it.module in gone}
    for module in sorted(kept.modules):
        trim_uses(edit, module, kept, names - staying)
    return edit.lines(), len(kept.functions)


def body_of(text):
    """What an edit turns, without what it leaves out."""
    return text.partition(BEGINS)[0].rstrip("\n") + "\n"


def edits(name):
    """The wrong bodies of a crate that the gate tries."""
    return sorted((TOP / "crates" / name / "must-fail").glob("*.edit"))


def whole(path):
    """The file of a wrong body of the gate as it is to be."""
    name, body = path.parent.parent.name, body_of(path.read_text())
    lines = [] if len(edits(name)) > 1 else (leave_out(Crate(name), body) or [[]])[0]
    return body + ("\n".join(["", BEGINS, *lines]) + "\n" if lines else "")


def main():
    """Writes what is left out, or tells how much it is."""
    words = reader_of_words(__doc__)
    words.add_argument("names", nargs="*", metavar="NAME", help="a crate; all of them if none is named")
    words.add_argument("--list", action="store_true", help="write nothing, and tell how many functions each leaves in")
    told = words.parse_args()
    for name in told.names or read_crates():
        for path in edits(name):
            if told.list:
                crate = Crate(name)
                lines, count = leave_out(crate, body_of(path.read_text())) or ([], len(crate.functions))
                print(f"{name}/{path.name}: {count} of {len(crate.functions)} functions, {len(lines)} lines")
            else:
                path.write_text(whole(path))


if __name__ == "__main__":
    run_script(main)
