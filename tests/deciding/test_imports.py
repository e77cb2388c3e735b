"""Tests that the folder weft/deciding stands by itself: it imports what is pure, and nothing else of weft."""

import ast
import unittest
from pathlib import Path

FOLDER = Path(__file__).resolve().parents[2] / "weft/deciding"
PURE = {
    "__future__", "base64", "binascii", "bisect", "collections", "dataclasses", "enum", "fractions", "functools", "hashlib", "heapq", "itertools", "math", "operator",
    "re", "string", "struct", "typing", "weft.statuses",
}  # fmt: skip
# What reads or writes by itself, without an import.
REACHING = {"open", "print", "input", "exec", "eval", "compile", "__import__", "breakpoint", "globals"}


def imported(tree: ast.AST) -> set[str]:
    """The modules that a module imports."""
    found = set()
    for node in ast.walk(tree):
        if isinstance(node, ast.Import):
            found |= {it.name for it in node.names}
        elif isinstance(node, ast.ImportFrom):
            found.add("." * node.level + (node.module or ""))
            if node.module in ("weft", "weft.deciding") or node.level:
                found |= {f"{node.module}.{it.name}" for it in node.names}
    return found


class Imports(unittest.TestCase):
    """What the modules of the folder use."""

    def test_each_module_imports_what_is_pure_alone(self) -> None:
        paths = sorted(FOLDER.rglob("*.py"))
        self.assertGreaterEqual(len(paths), 5)
        for path in paths:
            for name in imported(ast.parse(path.read_text(encoding="utf-8"))):
                is_own = name == "weft.deciding" or name.startswith("weft.deciding.")
                self.assertTrue(is_own or name in PURE or name.split(".")[0] in PURE - {"weft.statuses"}, f"{path.name} imports {name}")

    def test_no_module_reads_writes_or_prints(self) -> None:
        for path in sorted(FOLDER.rglob("*.py")):
            names = {node.id for node in ast.walk(ast.parse(path.read_text(encoding="utf-8"))) if isinstance(node, ast.Name)}
            self.assertFalse(names & REACHING, path.name)


if __name__ == "__main__":
    unittest.main()
