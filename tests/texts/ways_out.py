"""By which ways weft could write to a terminal besides its one function, weft.output.write: found in its sources, so that no caller forgets it."""

import ast

from harness.places import TOP

# The one module that has the streams, and the one that writes to files by their numbers.
OUTPUT, FILES = "weft/output.py", "weft/files.py"
STREAMS = {"stdout", "stderr", "__stdout__", "__stderr__"}
# What writes by itself, by whatever name it is called.
WRITERS = {"print", "input", "pprint", "print_exc", "print_stack", "print_last", "print_exception", "print_help", "print_usage", "breakpoint", "warn", "dump"}
NUMBERED = {"write", "writev", "dup2", "sendfile"}
STARTERS = {"run", "Popen", "call", "check_call", "check_output", "system", "popen"}


def sources():
    """The sources of weft, each by its name."""
    return {str(path.relative_to(TOP)): path for path in sorted((TOP / "weft").rglob("*.py"))} | {"weft/bin/weft": TOP / "weft/bin/weft"}


def called(node):
    """The object and the name of what is called: `os` and `write`, of a plain name nothing and the name."""
    target = node.func
    if isinstance(target, ast.Attribute):
        return (target.value.id if isinstance(target.value, ast.Name) else "?"), target.attr
    return "", target.id if isinstance(target, ast.Name) else "?"


def is_caught(node):
    """Whether a program is started whose output and errors both come back here or go nowhere."""
    names = {word.arg for word in node.keywords}
    return "capture_output" in names or {"stdout", "stderr"} <= names


def ways_out(name, tree):
    """What a source has that could write by another way: the line, and what stands there."""
    for node in ast.walk(tree):
        if isinstance(node, ast.Attribute) and node.attr in STREAMS and ast.unparse(node.value) == "sys" and name != OUTPUT:
            yield node.lineno, f"has {ast.unparse(node)}"
        elif isinstance(node, ast.Import) and any(it.name in ("sys", "os", "subprocess") and it.asname for it in node.names):
            yield node.lineno, "gives a module of the system another name"
        elif isinstance(node, ast.ImportFrom) and {it.name for it in node.names} & STREAMS:
            yield node.lineno, "imports a stream"
        elif isinstance(node, ast.Call):
            owner, function = called(node)
            is_own = owner == "os" and function in NUMBERED and name not in (OUTPUT, FILES)
            is_loose = owner in ("subprocess", "os") and function in STARTERS and not is_caught(node)
            if function in WRITERS or is_own or is_loose:
                yield node.lineno, f"calls {ast.unparse(node.func)}"


def other_ways():
    """All of them."""
    found = ((name, line, what) for name, path in sources().items() for line, what in ways_out(name, ast.parse(path.read_text(encoding="utf-8"))))
    return [f"  {name}:{line} {what}: what weft writes goes through weft.output" for name, line, what in found]


# One of each kind, which has to be found.
PLANTED = (
    "print('x')", "import sys\nsys.stdout.write('x')", "import sys\nsys.__stderr__.write('x')", "import os\nos.write(1, b'x')", "from sys import stderr",
    "import subprocess\nsubprocess.run(['x'], stdout=1)", "import traceback\ntraceback.print_exc()", "import os\nos.system('x')", "parser.print_help()",
    "import sys as s",
)  # fmt: skip


def unfound():
    """Those of the planted ways that aren't found."""
    return [f"  {text!r} isn't found" for text in PLANTED if not list(ways_out("weft/planted.py", ast.parse(text)))]
