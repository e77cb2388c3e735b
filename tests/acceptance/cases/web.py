"""The module of WebAssembly answers as the library does, and the page says what they say. Each proof, map and evidence that a case has the program judge is
judged by the module too, in one process of Node; behind that, changed ones, by the library and by the module. Then the module for JavaScript and the page's own parts by
Node's test runner, the page in Chromium and in Firefox, as a user meets it, and whether it is put together of the sources that lie here.
Where `node` or a browser is missing, or the page isn't built, that is told as skipped."""

import json
import random
import shutil
import subprocess
import sys
import tempfile
from unittest import mock

import timeweave
from example_files import high_of, low_of

from cases.library import sampled
from harness.library import judge
from harness.places import LONGEST, TOP
from harness.rooms import Skipped, Wrong, case, needs
from harness.samples import exchange
from harness.weft_room import Loom
from harness.web import FUNCTIONS, MODULE, PAGE, WEB, built, has, start_node
from timeweave_reference.histories import existence_proof
from timeweave_reference.paths import climbed
from timeweave_reference.proofs import read_link_proof
from timeweave_reference.timelines import Timeline

from weft import formats

sys.path.append(str(WEB / "tests"))

CHANGED, LOT, SMALL, SOME = 100_000, 500, 4000, 60


def each_proof(room):
    """each small proof, map and evidence of other cases, by the module"""
    built()
    rows = [row for row in sampled() if has(row[0])]
    asked_for = [(form, *files) for form, _, files, _ in rows]
    found = [answer for first in range(0, len(rows), LOT) for answer in start_node().judge(asked_for[first : first + LOT])]
    wrong = [row for row, answer in zip(rows, found) if answer != (row[1], row[3])]
    if wrong:
        raise Wrong(f"  of {len(rows)} questions {len(wrong)} are answered otherwise, first {wrong[0]}")


def changed(rand, proof):
    """The proof with bytes changed, cut, doubled or put in by chance."""
    data = bytearray(proof)
    for _ in range(rand.choice((1, 1, 1, 2, 3, 8))):
        place = rand.randrange(len(data) + 1)
        match rand.randrange(8):
            case 0:
                del data[place:]
            case 1:
                del data[place : place + rand.randrange(1, 40)]
            case 2:
                data[place:place] = rand.randbytes(rand.randrange(1, 40))
            case 3:
                data[place : place + 8] = rand.choice((0, 1, 2, 255, 2**40 - 1, 2**64 - 1)).to_bytes(8, "big")
            case _ if data:
                data[min(place, len(data) - 1)] ^= 1 << rand.randrange(8)
    return bytes(data)


def changed_proofs(room):
    """100,000 changed proofs, maps, evidence and lines, by the library and by the module: no answer differs"""
    built()
    rand, tried = random.Random("changed"), small_ones()
    for _ in range(CHANGED // LOT):
        lot = []
        for _ in range(LOT):
            form, *files = rand.choice(tried)
            place = rand.randrange(len(files) - 1) if rand.randrange(8) else len(files) - 1
            lot.append((form, *files[:place], changed(rand, files[place]), *files[place + 1 :]))
        for (form, *files), found in zip(lot, start_node().judge(lot)):
            wanted = judge(form, files)
            if found != wanted:
                raise Wrong(f"  {FUNCTIONS[form]} of {[data.hex() for data in files]}\n  the library answers {wanted}\n  the module {found}")


def small_ones():
    """The small files that the library is asked for, each with the letter of its function."""
    small = [(form, *files) for form, _, files, _ in sampled() if has(form) and max(map(len, files)) < SMALL]
    tried, reached = ([row for row in small if (row[0] in "vs") == is_proof] for is_proof in (True, False))
    # (as many of these as of proofs, or all)
    return tried + reached * max(1, len(tried) // (4 * max(1, len(reached))))


OF_MODULE = "timeweave.test.mjs"


def node_tests(room):
    """the module for JavaScript, by Node's test runner"""
    built()
    run_tests([WEB / "tests" / OF_MODULE])


def page_parts(room):
    """the page's own parts, by Node's test runner; what it says of lines beside the reader's is what weft says, by one table"""
    run_tests(sorted(path for path in (WEB / "tests").glob("*.test.mjs") if path.name != OF_MODULE))


# Of each file, in hexadecimal, what it shows: the lines that it tells, and of each step that it passes the link that the page would ask for of a line of zeros.
LINKS = """
import { readFileSync } from "node:fs";
import { linkTo, shownBy } from "OPENED";
for (const file of readFileSync(0, "utf8").trim().split("\\n")) {
    const { told, passed } = shownBy(Uint8Array.from(Buffer.from(file, "hex")));
    const link = (it) => Buffer.from(linkTo(it, { authenticator: "00".repeat(32) })).toString("hex");
    console.log(JSON.stringify({ told: told.map(({ service, step, authenticator }) => [service, step, authenticator]), passed: passed.map((it) => [it.service, it.step, it.top, link(it), it.under ?? null]) }));
}
"""
# What the page says first of each of these files under lines of the reader's.
HEADS = """
import { spawnSync } from "node:child_process";
import { readFileSync, writeFileSync } from "node:fs";
import { OWN, SENT, Session, readFile } from "SESSION";
import { headOf } from "VIEW";
const [program, lines, ...proofs] = process.argv.slice(2);
const ask = (name, proof, anchors) => {
    writeFileSync("asked", proof);
    writeFileSync("anchors", anchors);
    const done = spawnSync(program, [name.replace("timeweave_", ""), "asked", "anchors"]);
    return { status: done.status, text: done.stdout.toString() };
};
const verifier = { has: (name) => ["timeweave_verify", "timeweave_strict"].includes(name), ask, judge: (proof, anchors) => ask("verify", proof, anchors) };
for (const path of proofs) {
    const session = new Session(), file = (name, place) => readFile({ name, place, bytes: new Uint8Array(readFileSync(name)), size: readFileSync(name).length });
    session.add(file(lines, OWN));
    session.add(file(path, SENT));
    const head = headOf(session.judge(verifier, session.subjects[0]));
    console.log([head.look, head.title, head.sentence].join(" | "));
}
"""


def by_node(room, script, *words, given=""):
    """What a script of Node says, whose names in capitals are modules of the page."""
    for name in ("opened", "session", "view"):
        script = script.replace(f'"{name.upper()}"', f'"{(WEB / "page" / name).as_uri()}.mjs"')
    room.put("script.mjs", script.encode())
    done = subprocess.run([needs("node", "nodejs"), "script.mjs", *words], cwd=room.folder, input=given, capture_output=True, text=True, timeout=300)
    if done.returncode:
        raise Wrong(done.stdout[-2000:] + done.stderr[-2000:])
    return done.stdout.splitlines()


def received_files(room):
    """Files on what a service received, and its last line: a thread, two absences, and a link."""
    loom = Loom(room)
    for name in ("shop", "port", "zoo", "bank"):
        loom.service(name, [name.encode()])
    for name in ("shop", "port", "zoo"):
        loom.put("message", loom.timeweave("thread", name, "0"))
        loom.timeweave("receive", "bank", "message")
    last = loom.append("bank", b"last")
    words = ("thread 5 port 1", "absent 5 shop 7", "absent 4 mill 2", "link 2")
    found = [loom.timeweave("prove", "bank", *it.split(), "5") for it in words]
    return found, last


def expect_shown(data, found):
    """What the page reads of a file is what weft holds against kept lines: the same lines, and for each step that a path passes the link that the reference makes."""
    lines = {(line.service, line.step): line.authenticator for line in formats.lines_shown(data, ())}
    told = {(service, step): authenticator for service, step, authenticator in found["told"]}
    passed = {(service, step) for service, step, *_ in found["passed"]}
    tops = {(way.service, way.top) for way in formats.ways_in(data)}
    if not told.items() <= lines.items() or not lines.keys() - tops <= told.keys() | passed <= lines.keys():
        raise Wrong(f"  {sorted(lines)}\n  told: {sorted(told)}, passed: {sorted(passed)}")
    for service, step, top, link, under in found["passed"]:
        auth = bytes.fromhex(lines[service, step])
        proof = read_link_proof(bytes.fromhex(link[:74]) + auth + bytes.fromhex(link[138:]))
        held = under["authenticator"] if under else lines[service, top]
        if (proof.service, proof.step, proof.top) != (service, step, top) or climbed(proof.path, top, step, auth).hex() != held:
            raise Wrong(f"  the link of step {step} of {service} under step {top} isn't the one")


def opened_steps(room):
    """the page finds the lines that a proof of any kind or a map file shows besides its report, of steps that it opens, passes or received, as weft does; and what shows
    another line than one that the reader holds isn't called shown, though no report tells it"""
    line = Timeline("shop", [[b"event"]] * 70)
    files = [existence_proof(line, step, 0, top).to_bytes() for top in (1, 2, 3, 8, 31, 32, 33, 64, 70) for step in range(1, top + 1)]
    files += [(WEB / "examples" / name).read_bytes() for name in ("record.proof", "bound.proof", "word.proof")]
    own, peer = exchange()
    files += [low_of(own, step, peer.name, top) for step in (1, 2, 5, 8, 9) for top in {step, 9}]
    files += [high_of(peer, top, own.name, step) for top in (1, 2, 5) for step in (1, 3)]
    received, last = received_files(room)
    for data, found in zip([*files, *received], by_node(room, LINKS, given="".join(f"{it.hex()}\n" for it in [*files, *received]))):
        expect_shown(data, json.loads(found))
    other = Timeline("shop", [[b"event"]] * 20 + [[b"forged"]] + [[b"event"]] * 49)
    room.put("true", existence_proof(line, 31, 0, 70).to_bytes())
    for step in (30, 31, 32):
        for is_one, opened in ((True, line), (False, other)):
            room.put("lines", f"shop 70 {line.auths[70].hex()}\nshop {step} {opened.auths[step].hex()}\n".encode())
            [head] = by_node(room, HEADS, room.program, "lines", "true")
            if not head.startswith("yes | Shown | " if is_one else f"no | Not shown: two of your lines contradict each other | Two of your lines of shop contradict each other: this file goes with the one of step 70, and against the one of step {step}."):
                raise Wrong(f"  step {step}: {head}")
    for number, data in enumerate(received[:3]):
        room.put(f"received-{number}", data)
    for authenticator, wanted in ((None, "yes | Shown"), ("0" * 64, "no | Not shown: a line of yours contradicts the file")):
        room.put("lines", f"{last}{f'shop 1 {authenticator}' if authenticator else ''}\n".encode())
        heads = by_node(room, HEADS, room.program, "lines", "received-0", "received-1", "received-2")
        if not all(head.startswith(wanted) for head in heads):
            raise Wrong(f"  {heads}")


def run_tests(paths):
    """Runs tests of Node's runner; raises Wrong where one fails."""
    done = subprocess.run([needs("node", "nodejs"), "--test", *paths], capture_output=True, text=True, timeout=300)
    if done.returncode:
        raise Wrong(done.stdout[-4000:] + done.stderr[-1000:])


def of_these_sources(room):
    """the page is put together of the sources and the module that lie here"""
    built()
    import build_page

    if build_page.page(MODULE.read_bytes()) != PAGE.read_text():
        raise Wrong("  web/timeweave.html is another one: `make page`")


def stops(work, *words):
    """The status with which the build stops there, or None."""
    import build_page

    try:
        work(*words)
    except build_page.Stopped as why:
        return why.status
    return None


def build_stops(room):
    """the build stops at an intrinsic that isn't known, inline assembly, and a tool that isn't the pinned one"""
    needs("rt", "the kit")
    import build_page

    plain = 'declare void @llvm.memmove.p0.p0.i64()\nattributes #0 = { nounwind "probe-stack"="inline-asm" "target-cpu"="x86-64-v2" }\n'
    found = [stops(build_page.retargeted, plain + more) for more in ("", "call void @llvm.x86.sha256rnds2()", 'call void asm "nop", ""()')]
    found.append(stops(build_page.check_tools))
    with mock.patch.dict(build_page.PINNED, clang="0" * 64):
        found.append(stops(build_page.check_tools))
    if found != [None, 1, 1, None, build_page.OTHER_TOOL]:
        raise Wrong(f"  statuses {found}")


# Modules that are joined, by what is wrong with them.
JOINED = {
    "": ({"a.mjs": "export const ONE = 1;\nconst own = 2;\n", "page/b.mjs": 'import {\n    ONE,\n} from "../a.mjs";\nexport async function two() {\n    return ONE;\n}\n'},),
    "declare": ({"a.mjs": "const one = 1;\n", "b.mjs": "function one() {}\n"}, {"a.mjs": "const { one, two } = it;\n", "b.mjs": "let two = 1;\n"}),
    "imports what": (
        {"a.mjs": "export const one = 1;\n", "b.mjs": 'import { two } from "./a.mjs";\n'}, {"b.mjs": 'import { one } from "./a.mjs";\n', "a.mjs": "export const one = 1;\n"},
        {"a.mjs": "export const one = 1;\n", "b.mjs": 'import { one as two } from "./a.mjs";\n'}, {"a.mjs": "export const one = 1;\n", "b.mjs": 'import { one } from "./c.mjs";\n'},
    ),
    "isn't known": (
        {"a.mjs": 'import one from "./b.mjs";\n'}, {"a.mjs": 'import * as one from "./b.mjs";\n'}, {"a.mjs": "const one = 1;\nexport { one };\n"}, {"a.mjs": "export default 1;\n"},
        {"a.mjs": 'export * from "./b.mjs";\n'}, {"a.mjs": 'import "./b.mjs";\n'},
    ),
}  # fmt: skip


def joined_modules(room):
    """modules are joined into one script that runs as they do; two that declare one name, imports of what isn't declared before, and other forms are refused"""
    node = needs("node", "nodejs")
    needs("rt", "the kit")
    import build_page

    for why, groups in JOINED.items():
        for modules in groups:
            try:
                script = build_page.join_modules(modules)
            except build_page.Stopped as stopped:
                if not why or why not in str(stopped):
                    raise Wrong(f"  {modules}: {stopped}") from stopped
            else:
                if why:
                    raise Wrong(f"  {modules}: joined, and {why}")
                ran = subprocess.run([node, "-e", f"{script}two().then((it) => console.log(it + own));"], capture_output=True, text=True)
                if ran.stdout != "3\n":
                    raise Wrong(f"  {script}\n  {ran}")


# What Node prints of the module of addresses.c; past 4 GiB nothing grows.
ASKING = """
import { readFileSync } from "node:fs";
const { mix, grow, put } = (await WebAssembly.instantiate(readFileSync(process.argv[2]))).instance.exports;
const told = Array.from({ length: 300 }, (_, at) => mix(BigInt(at) * 0x123456789n));
told.push(put(8n, 77n), put(8n, 1n), grow(3n), put(150000n, 5n), put(150000n, 6n), grow(70000n), grow(1n));
console.log(told.join(" "));
"""


def narrow_addresses(room):
    """a module that is given 32-bit addresses answers as it did with 64-bit ones: each load and store, copied and filled memory, memory that grows or can't; others are refused"""
    node = needs("node", "nodejs")
    needs("rt", "the kit")
    import addresses
    import build_page

    tools = build_page.check_tools()
    words = [*build_page.TARGET, "-O2", "-ffreestanding", "-nostdinc", "-c", TOP / "tests/acceptance/harness/addresses.c", "-o", room.folder / "addresses.o"]
    subprocess.run([tools["clang"], *words], check=True)
    wide = build_page.linked(room.folder, tools, ("mix", "grow", "put"), "addresses.o")
    narrow = addresses.lower_addresses(wide)
    room.put("asking.mjs", ASKING.encode())
    told = []
    for name, module, flags in (("wide", wide, ["--experimental-wasm-memory64"]), ("narrow", narrow, [])):
        room.put(name, module)
        told.append(subprocess.run([node, *flags, room.folder / "asking.mjs", room.folder / name], check=True, capture_output=True, text=True).stdout)
    if told[0] != told[1] or not told[0].endswith(" 0 77 20 0 5 -1 21\n"):
        raise Wrong(f"  with 64-bit addresses {told[0][-300:]}\n  with 32-bit ones      {told[1][-300:]}")
    if not all(name in (room.folder / "wide").read_bytes() for name in (b"\xfc\x0a\0\0", b"\xfc\x0b\0")):
        raise Wrong("  no memory is copied and filled")
    for module in (narrow, b"", wide[:8] + b"\2\1\0" + wide[8:], wide.replace(b"\xfc\x0b\0", b"\xfc\x11\0")):
        try:
            addresses.lower_addresses(module)
        except (addresses.Refused, IndexError):
            continue
        raise Wrong(f"  {module[:20]!r} wasn't refused")


def checked_types(room):
    """tsc finds nothing in the module and the page's modules, and the declared types are those of the module; a type that isn't is found"""
    tsc = needs("tsc", "node-typescript")
    shutil.copytree(WEB, room.folder / "web", ignore=shutil.ignore_patterns("examples", "*.wasm", "*.html"))
    shutil.copyfile(WEB / "timeweave.mjs", room.folder / "web/tests/made.mjs")
    types = room.folder / "web/timeweave.d.mts"
    for old, new, wanted in (("", "", ""), ("NO_MEMORY: 6;", "NO_MEMORY: 7;", "declared.mts(")):
        types.write_text(types.read_text().replace(old, new) if old else types.read_text())
        done = subprocess.run([tsc, "-p", room.folder / "web/tests"], capture_output=True, text=True, timeout=LONGEST)
        if (done.returncode == 0) != (not wanted) or wanted not in done.stdout:
            raise Wrong(f"  {new or 'as it is'}: {done.stdout}{done.stderr}")


def in_browser(name, is_paper=False):
    def work(room):
        built()
        from browsers import is_there
        from made import all_made
        from try_page import BROWSERS, ON_PAPER, SITUATIONS, tried

        if not is_there(BROWSERS[name]):
            raise Skipped(f"there is no {BROWSERS[name].name}")
        with tempfile.TemporaryDirectory() as folder:
            if is_paper:
                needs("pdftotext", "poppler-utils")
            made = all_made(room.program, folder)
            with BROWSERS[name](folder) as browser:
                wrong = [f"  {situation.__doc__.strip()}\n  {said}" for situation, said in tried(browser, made, ON_PAPER if is_paper else SITUATIONS) if said]
        if wrong:
            raise Wrong("\n".join(wrong))

    work.__doc__ = f"the page's printed sheet, by {name}" if is_paper else f"the page in {name}, headless and without a connection"
    return work


def cases():
    for work in (each_proof, changed_proofs, node_tests, page_parts, opened_steps, of_these_sources, build_stops, joined_modules, narrow_addresses, checked_types, *map(in_browser, ("chromium", "firefox"))):
        yield case(work, "page")
    for name in ("chromium", "firefox"):
        yield case(in_browser(name, is_paper=True), "page")
