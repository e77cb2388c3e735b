#!/usr/bin/env python3
"""Builds the page that checks proofs: web/timeweave.html, one file, and web/timeweave.wasm, the library in it as a module of WebAssembly, which
web/timeweave.mjs loads. It needs nothing but the kit.

    python3 tools/build_page.py             proves the library's crates over a copy, as build_library.py does
    python3 tools/build_page.py --of-gate   takes those that the gate has built here
    python3 tools/build_page.py --page      puts the page together anew, of the module that lies there

One build of Rattle gives all: lib/libtimeweave.a and .so, where there is a C compiler, and the module. The kit's `rattle` knows WebAssembly, but
refuses there what calls the C library. So the library is built for x86-64; the LLVM module that Rattle made of it is kept, and the kit's own clang
compiles that for WebAssembly: both have 64-bit pointers, little end first. To keep it, Rattle is given a toolchain whose clang copies what it is given.
What is of x86-64 alone is taken out; where the module calls an intrinsic that isn't known here, or has inline assembly, the build stops. So does it where
clang or the linker isn't the one whose digest stands below: the bytes made, and what was tested of them, hang on these. At last the module is given the
32-bit addresses that every engine takes (addresses.py).

The status is 4 where one of the tools is another one.
"""

import base64
import hashlib
import json
import os
import re
import shutil
import sys
import tempfile
from pathlib import Path

import build_library
import built
from addresses import lower_addresses
from build import prove
from build_library import NAME
from crates import TOP, copy_crates
from kit import KIT, archive, run

WEB = TOP / "web"
MODULE, PAGE = WEB / "timeweave.wasm", WEB / "timeweave.html"
OTHER_TOOL = 4

# The kit's clang is its linker too.
PINNED = {
    "clang": "22b657c8ab338a03324a4b8bae6cf44babb20ceb764b54b83d7e0574fe37c044",
    "ld.lld": "22b657c8ab338a03324a4b8bae6cf44babb20ceb764b54b83d7e0574fe37c044",
}

TARGET = ["--target=wasm64-unknown-unknown", "-mcpu=lime1"]
STACK = 1 << 20

# The intrinsics of LLVM that a module may call: they mean the same on each machine.
INTRINSICS = {"ctlz", "cttz", "memmove", "memset", "trap"}

CLANG = """#!/bin/sh
for word; do case $word in *.bc) cp "$word" "{kept}/$$.bc";; esac; done
exec "{clang}" "$@"
"""

# The modules of the script, each behind those that it imports.
SCRIPTS = ["timeweave.mjs", "page/files.mjs", "page/sha256.mjs", "page/letters.mjs", "page/lines.mjs", "page/sentences.mjs", "page/bundles.mjs", "page/documents.mjs", "page/words.mjs", "page/picture.mjs", "page/opened.mjs", "page/session.mjs", "page/view.mjs", "page/page.mjs"]


class Stopped(Exception):
    """The build can't go on: why, and the status that it ends with."""

    def __init__(self, why, status=1):
        super().__init__(why)
        self.status = status


# ---- the tools


def check_tools():
    """The paths of the tools, each of which is the pinned one, by the names under which they are pinned."""
    found = {name: KIT / "toolchain/bin" / name for name in PINNED}
    for name, path in found.items():
        digest = hashlib.sha256(path.read_bytes()).hexdigest()
        if digest != PINNED[name]:
            raise Stopped(f"{path} isn't the tool that the page was tested with: its SHA-256 is {digest}, and {PINNED[name]} is wanted", OTHER_TOOL)
    return found


def keeping_kit(folder, kept):
    """The kit, but that its clang keeps a copy of each module that it compiles."""
    made = folder / "kit"
    (made / "toolchain/bin").mkdir(parents=True)
    for path in KIT.iterdir():
        if path.name != "toolchain":
            (made / path.name).symlink_to(path)
    for path in [*(KIT / "toolchain").iterdir(), *(KIT / "toolchain/bin").iterdir()]:
        if path.name not in ("bin", "clang"):
            (made / path.relative_to(KIT)).symlink_to(path)
    clang = made / "toolchain/bin/clang"
    clang.write_text(CLANG.format(kept=kept, clang=KIT / "toolchain/bin/clang"))
    clang.chmod(0o755)
    return made


# ---- the module


def lowered(copy, work):
    """The LLVM module that Rattle made of the proved library, and the archive for x86-64 that its clang made of the same."""
    kept = work / "kept"
    kept.mkdir()
    made = archive(copy, NAME, keeping_kit(work, kept))
    modules = list(kept.iterdir())
    if len(modules) != 1:
        raise Stopped(f"Rattle had {len(modules)} modules compiled, and one is wanted")
    return modules[0], made


def retargeted(text):
    """The text of an LLVM module without what is of x86-64 alone."""
    text = re.sub(r'"target-cpu"="[^"]*"', '"target-cpu"="lime1"', text)
    text = re.sub(r' "(?:probe-stack|stack-probe-size|tune-cpu|target-features)"="[^"]*"', "", text)
    called = {name for name in re.findall(r"@llvm\.(\w+)", text) if name not in INTRINSICS}
    if called:
        raise Stopped(f"the module calls intrinsics that aren't known here: {', '.join(sorted(called))}")
    if re.search(r"\basm\b|x86", text):
        raise Stopped("the module has inline assembly, or what is of x86-64 alone")
    return text


def exports():
    """The functions that the module shows: those of the library's header, and the allocator's."""
    declared = re.findall(r"^\w+ (timeweave_\w+)\(", (TOP / "include/timeweave.h").read_text(), re.M)
    return [*declared, "malloc", "free"]


def compiled(module, work, found):
    """The module of WebAssembly that an LLVM module gives, with 32-bit addresses, which every engine takes."""
    clang, quiet = found["clang"], [*TARGET, "-Wno-override-module"]
    run(clang, *quiet, "-S", "-emit-llvm", "-Xclang", "-disable-llvm-passes", "-x", "ir", module, "-o", work / "module.ll")
    (work / "wasm.ll").write_text(retargeted((work / "module.ll").read_text()))
    run(clang, *quiet, "-O3", "-ffunction-sections", "-c", "-x", "ir", work / "wasm.ll", "-o", work / "module.o")
    run(clang, *TARGET, "-O2", "-ffreestanding", "-fno-builtin", "-nostdinc", "-Wall", "-Werror", "-c", WEB / "heap.c", "-o", work / "heap.o")
    made = work / "32.wasm"
    made.write_bytes(lower_addresses(linked(work, found, exports(), "module.o", "heap.o")))
    return made


def linked(work, found, shown, *objects):
    """The module with 64-bit addresses that these objects of a folder give, which shows these functions."""
    # (the linker is the one for WebAssembly by its name)
    (work / "wasm-ld").symlink_to(found["ld.lld"])
    words = ["-mwasm64", "--no-entry", "--stack-first", "-z", f"stack-size={STACK}", "--gc-sections", "--strip-all", "--fatal-warnings"]
    run(work / "wasm-ld", *words, *(f"--export={name}" for name in shown), *(work / name for name in objects), "-o", work / "64.wasm")
    return (work / "64.wasm").read_bytes()


def module_sum():
    """The sum of what the module is built of."""
    return built.sum_of([NAME], ["tools/build_page.py", "tools/addresses.py", "web/heap.c", "include/timeweave.h"])


def build_module(copy, found):
    """Builds the module of the crates that were built in the copy, and the libraries of the same build."""
    with tempfile.TemporaryDirectory() as folder:
        work = Path(folder)
        module, made = lowered(copy, work)
        built.put(compiled(module, work, found), MODULE, module_sum())
        if shutil.which("cc"):
            build_library.join(made)


# ---- the page


def base64_of(data):
    return base64.b64encode(data).decode()


def declared(text):
    """The names that a module of the script declares: of functions, classes and constants, of a list of these too, and of those that are taken apart."""
    names = re.findall(r"^(?:export )?(?:async )?(?:const|let|function|class) (\w+)", text, re.M)
    for line in re.findall(r"^(?:export )?(?:const|let) .*", text, re.M):
        names += re.findall(r", ([A-Z_]+) = ", line)
        names += [name for group in re.findall(r"^(?:export )?(?:const|let) [\[{]([^\]}]*)", line) for name in re.findall(r"\w+", group)]
    return names


IMPORT = re.compile(r'^import \{([^}]*)\} from "([^"]+)";\n', re.M)


def join_modules(modules):
    """The modules, by their paths, as one script: each stands behind those that it imports, no two declare one name, and each name that one imports is declared by the
    other under that very name; else Stopped is raised."""
    known, made = {}, []
    for path, text in modules.items():
        for names, other in IMPORT.findall(text):
            source = os.path.normpath(os.path.join(os.path.dirname(path), other))
            unknown = [name for name in re.split(r",\s*", names.strip().rstrip(",")) if known.get(name) != source]
            if unknown:
                raise Stopped(f"{path} imports what {source} doesn't declare before it: {', '.join(unknown)}")
        twice = [name for name in declared(text) if known.setdefault(name, path) != path]
        if twice:
            raise Stopped(f"names that two modules of the page declare: {', '.join(sorted(twice))}")
        plain = re.sub(r"^export (?=(?:async )?(?:const|let|function|class) )", "", IMPORT.sub("", text), flags=re.M)
        if re.search(r"^(import|export)\b", plain, re.M):
            raise Stopped(f"{path} imports or exports in a way that isn't known here")
        made.append(plain)
    return "\n" + "\n".join(made)


def script():
    """The modules of the page in one."""
    return join_modules({name: (WEB / name).read_text() for name in SCRIPTS})


def examples():
    """The examples with their files."""
    listed = json.loads((WEB / "examples/examples.json").read_text())
    for example in listed:
        for file in example["files"]:
            file["base64"] = base64_of((WEB / "examples" / file.pop("path")).read_bytes())
    return json.dumps(listed)


def page(module):
    """The page with a module in it."""
    style, code = "\n" + (WEB / "page/style.css").read_text(), script()
    sum_of = lambda text: base64_of(hashlib.sha256(text.encode()).digest())  # noqa: E731
    parts = {
        "STYLE": style, "SCRIPT": code, "STYLE_SUM": sum_of(style), "SCRIPT_SUM": sum_of(code),
        "MODULE": base64_of(module), "EXAMPLES": examples(),
    }
    if any("</" in parts[name] for name in ("STYLE", "SCRIPT", "EXAMPLES")):
        raise Stopped("a part of the page has the letters that would end it")
    return re.sub(r"@([A-Z_]+)@", lambda found: parts[found[1]], (WEB / "page/page.html").read_text())


def build(words):
    if words == ["--page"]:
        PAGE.write_text(page(MODULE.read_bytes()))
        return 0
    if words not in ([], ["--of-gate"]):
        sys.exit(__doc__)
    found = check_tools()
    with tempfile.TemporaryDirectory(prefix="timeweave_build_") as folder:
        copy = TOP
        if not words:
            copy = Path(folder) / "tree"
            copy_crates([NAME], copy, without=("must-fail", "wrong-bodies.txt"))
            status = prove(copy)
            if status:
                return status
        build_module(copy, found)
    PAGE.write_text(page(MODULE.read_bytes()))
    return 0


def main():
    if sys.argv[1:] == ["--help"]:
        print(Path(__file__).name, __doc__)
        return 0
    try:
        return build(sys.argv[1:])
    except Stopped as why:
        print(f"build_page: {why}", file=sys.stderr)
        return why.status


if __name__ == "__main__":
    sys.exit(main())
