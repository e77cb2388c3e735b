import assert from "node:assert/strict";
import { execFileSync } from "node:child_process";
import { existsSync, mkdtempSync, readFileSync } from "node:fs";
import { tmpdir } from "node:os";
import { join } from "node:path";
import { test } from "node:test";
import { BadAnchors, BadFile, NoMemory, Rejected, Timeweave, load, readBounds, readContradiction, readFork, readReport, reportOf } from "../timeweave.mjs";

const file = (name) => new URL(`../examples/${name}`, import.meta.url), bytes = (name) => new Uint8Array(readFileSync(file(name)));
const built = new URL("../timeweave.wasm", import.meta.url), needsModule = { skip: existsSync(built) ? false : "the module isn't built: make page" };

test("the module is loaded from beside the file, from bytes, from a module and from a response", needsModule, async () => {
    const data = readFileSync(built), version = readFileSync(new URL("../../VERSION", import.meta.url), "utf8").trim();
    for (const source of [undefined, data, await WebAssembly.compile(data), new Response(data), Promise.resolve(data)]) assert.equal((await load(source)).version(), version);
    await assert.rejects(load(new Response("", { status: 404 })), /status 404/);
});

test("a proof gives its report, with the lines as text or as bytes", needsModule, async () => {
    const timeweave = await load(), wanted = { kind: "exists", text: "accepted exists\nevent shop 1 1 6d696c6b\n", events: [{ service: "shop", step: 1, index: 1, data: new TextEncoder().encode("milk") }], hops: [], carried: [] };
    for (const anchors of [bytes("shop.lines"), new TextDecoder().decode(bytes("shop.lines"))]) {
        assert.deepEqual(timeweave.verify(bytes("record.proof"), anchors), wanted);
        assert.deepEqual(timeweave.strict(bytes("record.proof"), anchors), wanted);
    }
});

test("what isn't accepted throws its reason, and bad lines theirs", needsModule, async () => {
    const timeweave = await load(), lines = new TextDecoder().decode(bytes("shop.lines"));
    assert.throws(() => timeweave.verify(bytes("changed.proof"), lines), (it) => it instanceof Rejected && it.number === 6 && it.reason === "BadEvent" && it.fields.join() === "0");
    assert.throws(() => timeweave.strict(bytes("word.proof"), bytes("three.lines")), (it) => it instanceof Rejected && it.reason === "Carried");
    assert.equal(timeweave.verify(bytes("word.proof"), bytes("three.lines")).carried.length, 1);
    assert.throws(() => timeweave.verify(bytes("record.proof"), `${lines}a 1`), (it) => it instanceof BadAnchors && it.line === 2);
    assert.throws(() => reportOf({ status: 6, text: "no memory\n" }), NoMemory);
});

test("a text that is longer than the first room is asked for again, and no bytes are a proof that is none", needsModule, async () => {
    const timeweave = await load(), none = new Uint8Array();
    assert.deepEqual(timeweave.judge(none, none), { status: 1, text: "rejected 1 Malformed 0\n" });
    assert.deepEqual(timeweave.judge(new Uint8Array(8_000_000), none), { status: 1, text: "rejected 1 Malformed 0\n" });
});

test("many calls leave the memory as large as it was", needsModule, async () => {
    const data = readFileSync(built), { instance } = await WebAssembly.instantiate(data), { malloc, free, memory } = instance.exports;
    const sizes = Array.from({ length: 40 }, (_, at) => BigInt(1 + at * at * 37)), blocks = () => sizes.map((size) => malloc(size));
    const first = blocks();
    assert.equal(new Set(first).size, sizes.length);
    first.forEach((it, at) => { assert.equal(it % 16n, 0n); new Uint8Array(memory.buffer, Number(it), Number(sizes[at])).fill(at); });
    first.forEach((it, at) => assert.ok(new Uint8Array(memory.buffer, Number(it), Number(sizes[at])).every((byte) => byte === at)));
    const size = memory.buffer.byteLength;
    first.forEach((it) => free(it));
    for (let time = 0; time < 1000; time++) blocks().forEach((it) => free(it));
    assert.equal(memory.buffer.byteLength, size);
    assert.equal(malloc(1n << 31n), 0n);
    assert.equal(malloc(1n << 30n), 0n);
});

test("a module without memory answers so, and judges the next proof", needsModule, async () => {
    const timeweave = await load(), huge = { length: 2 ** 31 };
    assert.deepEqual(timeweave.judge(huge, new Uint8Array()).status, 6);
    assert.equal(timeweave.verify(bytes("record.proof"), bytes("shop.lines")).kind, "exists");
});

/** The verifier over a module in the text format of WebAssembly, or null where there is no `wasm-as`. */
function over(text) {
    const folder = mkdtempSync(join(tmpdir(), "timeweave-"));
    try {
        execFileSync("wasm-as", ["-", "-o", join(folder, "it.wasm")], { input: text, stdio: "pipe" });
    } catch (fault) {
        if (fault.code === "ENOENT") return null;
        throw fault;
    }
    return new Timeweave(new WebAssembly.Module(readFileSync(join(folder, "it.wasm"))));
}

test("each function is handed the bytes of its files in their order", () => {
    // A module whose functions have no text, and whose status has a bit for each file whose only byte is its number, from 1 on.
    const counts = { verify: 2, strict: 2, checkmap: 3, checkfork: 2, contradict: 5, receiver: 3 };
    const read = (at) => `(i32.shl (i32.and (i32.eq (i32.load8_u (i32.wrap_i64 (local.get ${2 * at}))) (i32.const ${at + 1})) (i64.eq (local.get ${2 * at + 1}) (i64.const 1))) (i32.const ${at}))`;
    const status = (count) => Array.from({ length: count }, (_, at) => read(at)).reduce((sum, bit) => `(i32.add ${sum} ${bit})`);
    const functions = Object.entries(counts).map(([name, count]) => `(func (export "timeweave_${name}") (param ${"i64 ".repeat(2 * count + 3)}) (result i32)
        (i64.store (i32.wrap_i64 (local.get ${2 * count + 2})) (i64.const 0)) ${status(count)})`);
    const timeweave = over(`(module (memory (export "memory") 8) (global $top (mut i64) (i64.const 64)) (func (export "free") (param i64))
        (func (export "malloc") (param i64) (result i64) (global.set $top (i64.add (global.get $top) (i64.const 4096))) (global.get $top)) ${functions.join(" ")})`);
    for (const [name, count] of timeweave ? Object.entries(counts) : []) {
        const files = Array.from({ length: count }, (_, at) => Uint8Array.of(at + 1));
        assert.deepEqual(timeweave.ask(`timeweave_${name}`, ...files), { status: 2 ** count - 1, text: "" });
    }
});

test("after a trap another instance is called", () => {
    // A module whose verify traps at each second call of one instance.
    const timeweave = over(`(module (memory (export "memory") 1) (global $called (mut i32) (i32.const 0))
        (func (export "malloc") (param i64) (result i64) (i64.const 64)) (func (export "free") (param i64))
        (func (export "timeweave_verify") (param i64 i64 i64 i64 i64 i64 i64) (result i32)
            (if (global.get $called) (then (unreachable))) (global.set $called (i32.const 1)) (i64.store (i32.const 64) (i64.const 0)) (i32.const 1)))`);
    const none = new Uint8Array();
    if (!timeweave) return;
    for (let time = 0; time < 3; time++) {
        assert.equal(timeweave.judge(none, none).status, 1);
        assert.throws(() => timeweave.judge(none, none), WebAssembly.RuntimeError);
    }
});

test("each line of a report is read, and another text is refused", () => {
    const hexed = "ab".repeat(32);
    const report = readReport(`accepted precedes\nevent a 1 0 -\ntime a 1 5\nevent b 3 2 ff00\nhop a 1 b 2\ncarried a 1 ${hexed}\n`);
    assert.deepEqual(report.events, [{ service: "a", step: 1, index: 0, data: new Uint8Array(), time: 5 }, { service: "b", step: 3, index: 2, data: Uint8Array.of(255, 0) }]);
    assert.deepEqual(report.hops, [{ service: "a", step: 1, by: "b", archived: 2 }]);
    assert.deepEqual(report.carried, [{ service: "a", step: 1, authenticator: hexed }]);
    assert.deepEqual(readReport(`accepted thread\nthread b 5 a 3 ${hexed} 4\n`).received, { service: "b", step: 5, thread: { service: "a", step: 3, authenticator: hexed }, archived: 4 });
    assert.deepEqual(readReport("accepted absent\nabsent b 5 a 3\n").absent, { service: "b", step: 5, ofService: "a", ofStep: 3 });
    assert.deepEqual(readReport(`accepted link\nlink a 3 9 ${hexed}\n`).link, { thread: { service: "a", step: 3, authenticator: hexed }, top: 9 });
    assert.throws(() => readReport("accepted exists\nconstructor a\n"), /no line of a report/);
});

test("what maps, evidence and files that contradict each other show is read, and what isn't accepted throws", () => {
    const hexed = "ab".repeat(32), thread = { service: "a", step: 3, authenticator: hexed };
    assert.deepEqual(readBounds("accepted map\nlow 0\nhigh none\nupto 5\n"), { low: 0, high: undefined, upto: 5, text: "accepted map\nlow 0\nhigh none\nupto 5\n" });
    assert.equal(readBounds("accepted map\nlow 2\nhigh 4\nupto 5\n").high, 4);
    const fork = readFork(`accepted fork\nfirst a 3 ${hexed} b 2\nsecond a 9 ${hexed} c 7\n`);
    assert.deepEqual([fork.first, fork.second], [{ thread, by: "b", archived: 2 }, { thread: { ...thread, step: 9 }, by: "c", archived: 7 }]);
    const broken = readContradiction(`accepted broken-rule\nthread b 3 a 3 ${hexed} 2\nabsent b 4 a 3\n`);
    assert.deepEqual([broken.isJoined, broken.received, broken.absent], [true, { service: "b", step: 3, thread, archived: 2 }, { service: "b", step: 4, ofService: "a", ofStep: 3 }]);
    assert.equal(readContradiction(`accepted broken-rule-or-fork\nthread b 3 a 3 ${hexed} 2\nabsent b 4 a 3\n`).isJoined, false);
    const clock = readContradiction(`accepted broken-rule\nrule 8 ClockBack\nstep b 1 ${hexed} 0 9\nstep b 3 ${hexed} 0 5\n`);
    assert.deepEqual([clock.rule, clock.name, clock.service, clock.lines.length, clock.received], [8, "ClockBack", "b", 2, undefined]);
    assert.equal(readContradiction("accepted broken-rule\nrule 99 Later\nanother b\n").rule, 99);
    assert.throws(() => readContradiction("accepted broken-rule\n"), /no line of a report/);
    assert.throws(() => readBounds("accepted map\nlow 2\n"), /no line of a report/);
    const thrown = (status, text) => { try { reportOf({ status, text }); } catch (fault) { return fault; } };
    assert.deepEqual({ ...thrown(1, "rejected Gap 2\n") }, { name: "Rejected", number: undefined, reason: "Gap", fields: ["2"] });
    assert.equal(thrown(1, "rejected Gap 2\n").message, "Gap 2");
    assert.ok(thrown(9, "unreadable low byte 4\n") instanceof BadFile);
    assert.deepEqual({ ...thrown(9, "unreadable second_anchors line 2\n") }, { name: "BadAnchors", line: 2, file: "second_anchors" });
});

test("a function that the module lacks is told", needsModule, async () => {
    const timeweave = await load();
    assert.deepEqual(["timeweave_verify", "timeweave_strict", "timeweave_frob"].map((name) => timeweave.has(name)), [true, true, false]);
});
