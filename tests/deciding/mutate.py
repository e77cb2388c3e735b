#!/usr/bin/env python3
"""Turns what weft/deciding decides, one place at a time, and lists each turned place that no test of tests/deciding refuses.

    python3 tests/deciding/mutate.py [MODULE ..]    all modules, or those of these names, as `worst`
        --list                                      tells the places, and tries none

Turned are: the condition of each if, elif, while, ternary and filter; each comparison (< and <=, > and >=, == and !=, in and not in, is and
is not); each and, or and not; each member of an Enum and each bool that is answered. Each turned module is tried in a process of its own,
forked from this one, by the tests of its own file first and then by all. Status 0: each is refused. 1: one isn't, or an allowance of
EQUIVALENT isn't needed. 2: the tests fail as they are."""

from __future__ import annotations

import argparse
import ast
import copy
import enum
import importlib.abc
import importlib.util
import os
import signal
import sys
import time
import unittest
from importlib.machinery import ModuleSpec
from pathlib import Path
from types import CodeType, ModuleType
from typing import Iterator, NamedTuple, Optional, Sequence

TOP = Path(__file__).resolve().parents[2]
FOLDER, TESTS = TOP / "weft/deciding", TOP / "tests/deciding"
PACKAGE = "weft.deciding"
MOST_SECONDS = 10  # (of a processor, so that a machine with much other work refuses nothing)
REFUSED, LEFT, RAN_ON = "refused", "left", "ran on"

TURNED = {
    ast.Lt: ast.LtE, ast.LtE: ast.Lt, ast.Gt: ast.GtE, ast.GtE: ast.Gt, ast.Eq: ast.NotEq, ast.NotEq: ast.Eq, ast.In: ast.NotIn, ast.NotIn: ast.In,
    ast.Is: ast.IsNot, ast.IsNot: ast.Is, ast.And: ast.Or, ast.Or: ast.And,
}  # fmt: skip

# What is turned and stays the same in what it answers: module, function, and the turned text, each with the reason.
EQUIVALENT: dict[tuple[str, str, str], str] = {
    ("signatures", "decode_base64", "False"): "what b64decode passes over without validate isn't there any more once it is encoded again and compared",
}


class Mutant(NamedTuple):
    """A turned place: the module, the function, the line, what stood there and what stands there now, and the whole turned module."""

    module: str
    function: str
    line: int
    was: str
    now: str
    tree: ast.Module

    @property
    def key(self) -> tuple[str, str, str]:
        """How EQUIVALENT names it."""
        return self.module, self.function, self.now

    @property
    def told(self) -> str:
        """Where it is, and what was turned."""
        return f"weft/deciding/{self.module}.py:{self.line}: in {self.function}: {self.was}  ->  {self.now}"


# ---- what is turned


def turned_of(node: ast.AST, answered: set[int], enums: dict[str, list[str]]) -> Iterator[ast.AST]:
    """The nodes that are put in the place of a node, one at a time."""
    if isinstance(node, (ast.If, ast.While, ast.IfExp)):
        yield with_field(node, "test", negated(node.test))
    if isinstance(node, ast.comprehension):
        for place, test in enumerate(node.ifs):
            yield with_field(node, "ifs", [*node.ifs[:place], negated(test), *node.ifs[place + 1 :]])
    if isinstance(node, ast.Compare):
        for place, op in enumerate(node.ops):
            yield with_field(node, "ops", [*node.ops[:place], TURNED[type(op)](), *node.ops[place + 1 :]])
    if isinstance(node, ast.BoolOp):
        yield with_field(node, "op", TURNED[type(node.op)]())
    if isinstance(node, ast.UnaryOp) and isinstance(node.op, ast.Not):
        yield copy.deepcopy(node.operand)
    if id(node) in answered and isinstance(node, ast.Constant) and isinstance(node.value, bool):
        yield ast.Constant(not node.value)
    if id(node) in answered and isinstance(node, ast.Attribute) and isinstance(node.value, ast.Name):
        members = enums.get(node.value.id, [])
        if node.attr in members and len(members) > 1:
            yield with_field(node, "attr", members[(members.index(node.attr) + 1) % len(members)])


def with_field(node: ast.AST, field: str, value: object) -> ast.AST:
    """A copy of the node with another field."""
    new = copy.deepcopy(node)
    setattr(new, field, copy.deepcopy(value))
    return new


def negated(test: ast.expr) -> ast.expr:
    """The condition turned round."""
    return ast.UnaryOp(ast.Not(), copy.deepcopy(test))


def answered_in(tree: ast.AST) -> set[int]:
    """The nodes that stand in what is answered or handed on, and not in a comparison of it."""
    found: set[int] = set()

    def walk(node: ast.AST, is_answer: bool) -> None:
        is_answer = (is_answer or isinstance(node, (ast.Return, ast.Yield, ast.Assign, ast.Lambda, ast.Call))) and not isinstance(node, ast.Compare)
        if is_answer:
            found.add(id(node))
        for child in ast.iter_child_nodes(node):
            walk(child, is_answer)

    walk(tree, False)
    return found


def mutants_of(module: str, tree: ast.Module, enums: dict[str, list[str]]) -> Iterator[Mutant]:
    """All turned places of a module."""
    answered, owners = answered_in(tree), owners_of(tree)
    for place, node in enumerate(ast.walk(tree)):
        for new in turned_of(node, answered, enums) if id(node) in owners else ():
            turned = copy.deepcopy(tree)
            target = next(it for number, it in enumerate(ast.walk(turned)) if number == place)
            replace(turned, target, new)
            line = getattr(node, "lineno", 0) or getattr(getattr(node, "target", None), "lineno", 0)
            yield Mutant(module, owners[id(node)], line, text_of(node), text_of(new), ast.fix_missing_locations(turned))


def owners_of(tree: ast.Module) -> dict[int, str]:
    """The name of the function, with that of its class, in whose body each node stands."""
    found: dict[int, str] = {}

    def walk(node: ast.AST, name: str, is_within: bool) -> None:
        for child in ast.iter_child_nodes(node):
            whole, is_body = name, is_within
            if isinstance(child, (ast.FunctionDef, ast.ClassDef)):
                whole = f"{name}.{child.name}" if name else child.name
                is_body = is_within or isinstance(child, ast.FunctionDef)
            if is_within:
                found[id(child)] = name
            walk(child, whole, is_body)

    walk(tree, "", False)
    return found


def replace(tree: ast.AST, old: ast.AST, new: ast.AST) -> None:
    """Puts a node in the place of another one."""
    for parent in ast.walk(tree):
        for field, value in ast.iter_fields(parent):
            if value is old:
                setattr(parent, field, new)
            elif isinstance(value, list):
                value[:] = [new if it is old else it for it in value]


def text_of(node: ast.AST) -> str:
    """The first line of a node's text, of a filter what it filters."""
    if isinstance(node, ast.comprehension):
        return "for .. " + " ".join(f"if {ast.unparse(test)}" for test in node.ifs)
    if isinstance(node, (ast.If, ast.While)):
        return f"{'if' if isinstance(node, ast.If) else 'while'} {ast.unparse(node.test)}"
    return ast.unparse(node).split("\n")[0]


# ---- modules, as they are and turned


class Held(importlib.abc.MetaPathFinder, importlib.abc.Loader):
    """Loads the modules of the folder and their tests from code that was compiled once, and one of them turned."""

    def __init__(self, codes: dict[str, CodeType]):
        self.codes = codes

    def find_spec(self, name: str, path: object = None, target: object = None) -> Optional[ModuleSpec]:
        """The module, where it is one of these."""
        if name not in self.codes:
            return None
        return importlib.util.spec_from_loader(name, self, is_package=name == PACKAGE)

    def exec_module(self, module: ModuleType) -> None:
        """Runs its code."""
        code = self.codes[module.__name__]
        module.__file__ = code.co_filename
        exec(code, module.__dict__)


def sources() -> dict[str, Path]:
    """The modules of the folder and of the tests, by their names."""
    own = {f"{PACKAGE}.{path.stem}": path for path in sorted(FOLDER.glob("*.py")) if path.stem != "__init__"}
    tests = {path.stem: path for path in sorted(TESTS.glob("test_*.py"))}
    return {PACKAGE: FOLDER / "__init__.py", **own, **tests}


def compiled(paths: dict[str, Path]) -> dict[str, CodeType]:
    """Their code."""
    return {name: compile(path.read_text(encoding="utf-8"), str(path), "exec") for name, path in paths.items()}


def fails(names: Sequence[str]) -> bool:
    """Whether a test of these modules fails, or one of them can't be loaded."""
    for name in names:
        tests = unittest.defaultTestLoader.loadTestsFromModule(importlib.import_module(name))
        result = unittest.TestResult()
        result.failfast = True
        tests.run(result)
        if not result.wasSuccessful():
            return True
    return False


def enums_of(paths: dict[str, Path], codes: dict[str, CodeType]) -> dict[str, dict[str, list[str]]]:
    """The members of the Enums that each module knows, by the names of both; read in a forked process, so that nothing is loaded in this one."""
    reading, writing = os.pipe()
    child = os.fork()
    if child == 0:
        sys.meta_path.insert(0, Held(codes))
        found = {}
        for name in paths:
            if name.startswith(f"{PACKAGE}."):
                held = vars(importlib.import_module(name)).items()
                found[name] = {it: [*kind.__members__] for it, kind in held if isinstance(kind, type) and issubclass(kind, enum.Enum)}
        with os.fdopen(writing, "w") as file:
            file.write(repr(found))
        os._exit(0)
    os.close(writing)
    with os.fdopen(reading) as file:
        text = file.read()
    os.waitpid(child, 0)
    result: dict[str, dict[str, list[str]]] = ast.literal_eval(text)
    return result


# ---- trying


def tried(codes: dict[str, CodeType], tests: Sequence[str]) -> str:
    """What became of the tests over this code, in a forked process."""
    child = os.fork()
    if child == 0:
        status = 1
        try:
            null = os.open(os.devnull, os.O_RDWR)
            os.dup2(null, 1)
            os.dup2(null, 2)
            sys.meta_path.insert(0, Held(codes))
            signal.setitimer(signal.ITIMER_PROF, MOST_SECONDS)
            status = 1 if fails(tests) else 0
        except BaseException:  # noqa: BLE001 - a module that can't be loaded is refused too
            status = 1
        finally:
            os._exit(status)
    _, status = os.waitpid(child, 0)
    if os.WIFSIGNALED(status):
        return RAN_ON
    return LEFT if os.WEXITSTATUS(status) == 0 else REFUSED


def try_mutant(mutant: Mutant, codes: dict[str, CodeType], tests: Sequence[str]) -> str:
    """What became of a turned module, by its own tests first."""
    turned = {**codes, f"{PACKAGE}.{mutant.module}": compile(mutant.tree, f"weft/deciding/{mutant.module}.py", "exec")}
    own = [name for name in tests if name == f"test_{mutant.module}"]
    found = tried(turned, own) if own else LEFT
    return tried(turned, [name for name in tests if name not in own]) if found == LEFT else found


def read_words() -> argparse.Namespace:
    """The words of the command line."""
    words = argparse.ArgumentParser(description=__doc__, formatter_class=argparse.RawDescriptionHelpFormatter)
    words.add_argument("modules", metavar="MODULE", nargs="*", help="these modules alone")
    words.add_argument("--list", action="store_true", help="tell the places, and try none")
    return words.parse_args()


def main() -> int:
    """Tries all turned places."""
    words = read_words()
    sys.path[:0] = [str(TOP)]
    paths = sources()
    codes = compiled(paths)
    tests = [name for name in paths if name.startswith("test_")]
    chosen = [name.rpartition(".")[2] for name in paths if name.startswith(f"{PACKAGE}.")]
    unknown = [name for name in words.modules if name not in chosen]
    if unknown:
        print(f"there is no module {', '.join(unknown)} in weft/deciding")
        return 2
    if tried(codes, tests) != LEFT:
        print("the tests fail as they are: python3 -m unittest discover -s tests/deciding")
        return 2
    enums = enums_of(paths, codes)
    mutants = [
        mutant
        for name in words.modules or chosen
        for mutant in mutants_of(name, ast.parse(paths[f"{PACKAGE}.{name}"].read_text(encoding="utf-8")), enums[f"{PACKAGE}.{name}"])
    ]
    if words.list:
        print("\n".join(mutant.told for mutant in mutants))
        return 0
    return try_all(mutants, codes, tests, bool(words.modules))


def try_all(mutants: Sequence[Mutant], codes: dict[str, CodeType], tests: Sequence[str], is_part: bool) -> int:
    """Tries each, and tells those that no test refuses, and allowances that aren't needed; answers the status."""
    began = time.monotonic()
    left = []
    for mutant in mutants:
        if try_mutant(mutant, codes, tests) == LEFT:
            left.append(mutant)
            if mutant.key not in EQUIVALENT:
                print(f"no test refuses {mutant.told}", flush=True)
    wrong = [mutant for mutant in left if mutant.key not in EQUIVALENT]
    unneeded = [] if is_part else sorted(EQUIVALENT.keys() - {mutant.key for mutant in left})
    for key in unneeded:
        print(f"the allowance of {key} isn't needed")
    allowed = len(left) - len(wrong)
    counts = f"{len(mutants) - len(left)} refused, {allowed} the same in what they answer, {len(wrong)} left"
    print(f"{len(mutants)} places turned: {counts} ({time.monotonic() - began:.0f} s)")
    return 1 if wrong or unneeded else 0


if __name__ == "__main__":
    sys.exit(main())
