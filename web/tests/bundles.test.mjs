import assert from "node:assert/strict";
import { readFileSync } from "node:fs";
import { test } from "node:test";
import { openBundle, readBundle, readBundledLines, recordName, writeBundle } from "../page/bundles.mjs";
import { DOCUMENT, OWN, SENT, Session, readFile, takeFile } from "../page/session.mjs";
import { headOf, summaryWords } from "../page/view.mjs";
import { bundleNotes } from "../page/words.mjs";

const TABLE = JSON.parse(readFileSync(new URL("../../tests/deciding/bundles.json", import.meta.url)));
const changed = (data, [at, gone, come, times]) => Buffer.concat([data.subarray(0, at), Buffer.alloc((come.length / 2) * times, come, "hex"), data.subarray(at + gone)]);
const bytesOf = ({ base, changes }) => new Uint8Array(changes.reduce(changed, Buffer.from(TABLE.bases[base], "base64")));

test("each vector that weft's reader is held against has the same answer here", () => {
    for (const it of TABLE.vectors) {
        const { files, unfit } = readBundle(bytesOf(it));
        assert.deepEqual(unfit ?? [...files.keys()], it.answer, it.name);
    }
    for (const { given, name } of TABLE.names) assert.equal(recordName("record", Buffer.from(given, "hex")), name);
});

test("what is read is written so again, and what is longer isn't read", () => {
    const data = new Uint8Array(Buffer.from(TABLE.bases.whole, "base64")), { files } = readBundle(data);
    assert.deepEqual(writeBundle(new Map([...files].reverse())), data);
    assert.equal(readBundle(data.subarray(0, 100), 2 ** 26 + 1).unfit, "LONG");
});

const X = "a".repeat(64), Y = "b".repeat(64), text = (given) => new TextEncoder().encode(given);

test("the lines of a bundle are lines and nothing else", () => {
    const found = (given) => readBundledLines(text(given));
    assert.deepEqual(found(`shop 2 ${X.toUpperCase()}\r\nshop 2 ${X}\nshop 0 ${Y}`).lines.map((it) => [it.step, it.authenticator, it.number]), [[2, X, 1], [2, X, 2], [0, Y, 3]]);
    assert.deepEqual(bundle({ lines: `shop 2 ${X}\nshop 2 ${X}`, held: `bank 1 ${X}\nshop 2 ${X}\n` }).lines.map((it) => [it.service, it.number]), [["shop", 1], ["bank", 1]]);
    for (const [given, none] of [["", 1], ["\n", 1], [`shop 2 ${X}\n\n`, 2], [`shop 2 ${X}\n# shop 2 ${X}\n`, 2], [` shop 2 ${X}`, 1], [`Shop 2 ${X}`, 1], [`\ufeffshop 2 ${X}`, 1], [`shop 02 ${X}`, 1], [`shop 1099511627776 ${X}`, 1]]) {
        assert.deepEqual(found(given), { lines: [], none }, given);
    }
});

const PARTS = { "README.txt": "", proof: "TWP1\u0001", lines: `shop 2 ${X}\n` };
const bundle = (parts = {}, name = "b.zip", place = SENT) => {
    const bytes = writeBundle(new Map(Object.entries({ ...PARTS, ...parts }).map(([part, given]) => [part, text(given)])));
    return readFile({ name, size: bytes.length, bytes, place });
};
/** A verifier that accepts whatever it is given, once it has a line of step 2 of shop. */
const verifier = {
    has: (name) => ["timeweave_verify", "timeweave_strict", "timeweave_checkfork"].includes(name),
    ask: (name, proof, anchors) => (`${anchors}`.startsWith("shop 2 ") ? { status: 0, text: "accepted exists\nevent shop 1 0 6d696c6b\n" } : { status: 1, text: "rejected 3 NotHeld shop 2\n" }),
    judge: (proof, anchors) => verifier.ask("timeweave_verify", proof, anchors),
};
/** What is judged of a bundle under these lines of yours, what is said first, and what of its lines. */
function judgedUnder(own, parts, { documents = [], counted = [] } = {}) {
    const session = new Session(), lines = text(own.join("\n"));
    session.add(bundle(parts));
    if (own.length) session.add(readFile({ name: "mine", size: lines.length, bytes: lines, place: OWN }));
    for (const document of documents) session.add(Object.assign(readFile({ name: document.name, size: 1, bytes: text("x"), place: DOCUMENT }), document));
    for (const line of counted) session.counted.add(line);
    const [subject] = session.subjects, judged = session.judge(verifier, subject);
    return { session, judged, head: headOf(judged), notes: bundleNotes(judged), summary: summaryWords([judged]) };
}

test("the lines of a bundle are the sender's: nothing is judged under them", () => {
    const { session, judged, head, notes } = judgedUnder([]);
    assert.deepEqual([head.look, head.title, judged.anchors, judged.report], ["open", "Not judged", [], undefined]);
    assert.equal(head.sentence, "The line of step 2 of shop is missing. Only the sender gave you one.");
    assert.doesNotMatch(head.todo, /weft judge/);
    assert.deepEqual(notes, ["The line of step 2 of shop in the file is the sender's alone: nothing is judged under it."]);
    assert.deepEqual([judged.missing.offered.map(({ from }) => from), session.linesAt(OWN)], [[{ name: "b.zip", isSender: true }], []]);
    const all = judgedUnder([], {}, { counted: [`shop 2 ${X}`] });
    assert.deepEqual([all.head.title, all.notes], ["Shown in part: by the sender's own lines", []]);
});

test("a line of yours that is the same one meets it, and another one of that step is told as two lines", () => {
    const same = judgedUnder([`shop 2 ${X}`]), other = judgedUnder([`shop 2 ${Y}`]), aside = judgedUnder([`shop 2 ${X}`, `bank 1 ${Y}`], { lines: `shop 2 ${X}\nbank 1 ${X}\n` });
    assert.deepEqual([same.head.title, same.notes], ["Shown", ["The line of step 2 of shop in the file is the one that you kept."]]);
    for (const { head, session } of [other, aside]) {
        assert.deepEqual([head.look, head.title, session.contradictions.sent.length], ["no", "Not shown", 1]);
        assert.match(head.sentence, /is another one than a{16}\.\. of this file: (shop|bank) has shown two histories, or one of both isn't (shop|bank)'s\.$/);
        assert.equal(head.lines.length, 2);
    }
    assert.match(other.head.todo, /^Keep what you were sent and both lines/);
    assert.equal(aside.notes.length, 1);
});

test("two lines are told beside what isn't judged too", () => {
    const { head, summary } = judgedUnder([`bank 1 ${Y}`], { lines: `shop 2 ${X}\nbank 1 ${X}\n` });
    assert.deepEqual([head.look, head.title], ["open", "Not judged"]);
    assert.match(head.first, /^The line of step 1 of bank that you kept is another one than/);
    assert.match(summary, /^Not judged: The line of step 1 of bank/);
});

test("stamps and signatures count for nothing here, and the command that checks them is named", () => {
    const parts = { "stamped-1": `shop 2 ${X}\n`, "stamp-1": "0", "signed-3": `shop 2 ${X}\n`, "signed-3.sig": "s" }, { head, notes, judged } = judgedUnder([], parts);
    assert.deepEqual([head.title, judged.anchors], ["Not judged", []]);
    assert.match(head.todo, / Or judge it by `weft judge BUNDLE`, which checks its stamps and signatures\.$/);
    assert.deepEqual(notes.slice(1), [
        "It has a stamp of the line of step 2 of shop. This page checks no stamps, so none counts here: `weft judge BUNDLE` checks them.",
        "It has a signature of the line of step 2 of shop. This page checks no signatures, so none counts here: `weft judge BUNDLE` checks them.",
    ]);
    for (const half of [{ "stamped-1": `shop 2 ${X}\n` }, { "stamp-1": "0" }, { "stamped-1": `shop 2 ${X}`, "stamp-1": "0" }, { "stamped-1": `shop 2 ${Y}\n`, "stamp-1": "0" }]) assert.equal(judgedUnder([], half).notes.length, 1);
});

test("the record of a bundle is compared, and a document of yours is besides", () => {
    const title = (parts, ...documents) => judgedUnder([`shop 2 ${X}`], parts, { documents }).head.title, milk = { record: "milk", "record.name": "a.txt\n" };
    assert.deepEqual([title(milk), title({ record: "beer" })], ["Shown", "Not shown: recorded, but as no file"]);
    assert.equal(title(milk, { name: "deed", digest: Y }), "Not shown: recorded, but as no file");
    assert.equal(title({ record: "beer" }, { name: "deed", digest: openedDigest("milk") }), "Not shown: recorded, but as no file");
    assert.equal(title(milk, { name: "deed", digest: openedDigest("milk") }), "Shown");
    assert.deepEqual([title({ ...milk, "record-2": "milk" }), title({ ...milk, "record-2": "beer" })], ["Shown", "Not shown: recorded, but as no file"]);
});

test("a record beside a proof of no event isn't compared, so that nothing is called shown", () => {
    const session = new Session(), told = `accepted link\nlink shop 2 3 ${X}\n`, ask = (name, proof, anchors) => (`${anchors}` ? { status: 0, text: told } : { status: 1, text: "rejected 3 NotHeld shop 3\n" });
    const mine = text(`shop 3 ${X}\n`), of = (parts) => {
        session.files = [bundle(parts), readFile({ name: "mine", size: mine.length, bytes: mine, place: OWN })];
        return headOf(session.judge({ ...verifier, ask, judge: (proof, anchors) => ask("", proof, anchors) }, session.subjects[0]));
    };
    assert.deepEqual([of({}).title, of({ record: "milk" }).title], ["Shown", "Not judged"]);
    assert.match(`${of({ record: "milk", "record.name": "a.txt\n" }).sentence}`, /^It is no proof of an event, so “a\.txt” isn't compared with it\.$/);
});

const openedDigest = (record) => bundle({ record }).opened.records[0].digest;

test("what is no bundle isn't judged, for the reason that weft tells, and may be the document", () => {
    const head = (bytes) => {
        const session = new Session(), file = readFile({ name: "b.zip", size: bytes.length, bytes, place: SENT });
        session.add(file);
        return { file, head: headOf(session.judge(verifier, session.subjects[0])) };
    };
    for (const it of TABLE.vectors.filter(({ name }) => name !== "nothing" && !name.startsWith("as long") && !name.startsWith("longer"))) {
        const bytes = bytesOf(it);
        if (String.fromCharCode(...bytes.subarray(0, 4)) !== "PK\u0003\u0004") continue;
        const { file, head: told } = head(bytes);
        assert.deepEqual([told.look, told.title, session(file).length], ["open", "Not judged", 0], it.name);
        if (typeof it.answer === "string") assert.match(`${told.sentence}`, /^“b\.zip” is no bundle of weft: (it|its|a file) /, it.name);
        assert.equal(file.belongs, DOCUMENT, it.name);
    }
    assert.match(`${head(writeBundle(new Map([["README.txt", text("")], ["proof", text("")], ["lines", text("x")]]))).head.sentence}`, /^Line 1 of “b\.zip”: lines is no line of a service\.$/);
    assert.match(`${head(writeBundle(new Map(["README.txt", "proof", "lines", "held"].map((name) => [name, text(name === "lines" ? `shop 2 ${X}` : "x")])))).head.sentence}`, /^Line 1 of “b\.zip”: held is/);
    assert.deepEqual(["TWP1\u0001", "TWP1\u0006", "TWP1\u0007"].map((second) => bundle({ proof: "TWP1\u0006", "proof-2": second }).opened.fault), ["apart", "apart", undefined]);
    const many = bundle({ lines: Array.from({ length: 65 }, (_, at) => `shop ${at} ${X}`).join("\n") });
    assert.deepEqual([many.opened.fault, many.opened.count, many.lines], ["many lines", 65, []]);
});

const session = (file) => Object.assign(new Session(), { files: [file] }).linesAt(SENT);

test("what stands in the place of the proof is what it is by itself", () => {
    const of = (proof) => judgedUnder([`shop 2 ${X}`], { proof });
    assert.match(`${of("TWH1").head.sentence}`, /is a whole history, and no proof/);
    assert.match(`${of("junk").head.sentence}`, /^The proof in “b\.zip” is no file of Timeweave/);
    const maps = judgedUnder([], { proof: "TWP1\u0006", "proof-2": "TWP1\u0007" }).judged;
    assert.deepEqual([maps.call, maps.files.length, maps.isAlone], ["timeweave_checkmap", 2, false]);
    assert.deepEqual(["TWP1\u0006", "TWT1", "PK\u0003\u0004", ""].map((it) => [of(it).head.look, of(it).judged.report]), Array(4).fill(["open", undefined]));
});

test("a bundle is one in each field, a zip file that is the document stays one, and a long one is read whole", async () => {
    assert.deepEqual([bundle({}, "b", OWN).place, bundle({}, "b", DOCUMENT).belongs, bundle({}, "b", DOCUMENT).lines], [SENT, SENT, []]);
    const zip = bytesOf({ base: "packed", changes: [] });
    assert.equal(readFile({ name: "deed.zip", size: zip.length, bytes: zip, place: DOCUMENT }).belongs, undefined);
    const whole = writeBundle(new Map([...Object.entries(PARTS), ["record", "x".repeat(6_000_000)]].map(([name, given]) => [name, text(given)]))), blob = new Blob([whole]);
    assert.equal((await takeFile(blob, "b.zip", SENT)).opened.records[0].size, 6_000_000);
    assert.equal((await takeFile(blob, "b.zip", DOCUMENT)).bytes.length, 5_242_880);
    assert.equal(openBundle(whole.subarray(0, 1000), 2 ** 26 + 1).unfit, "LONG");
});
