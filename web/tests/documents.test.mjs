import assert from "node:assert/strict";
import { createHash } from "node:crypto";
import { test } from "node:test";
import { digestOfBlob, matchFile, readRecorded, wholeDigest } from "../page/documents.mjs";
import { Sha256 } from "../page/sha256.mjs";

const text = (given) => new TextEncoder().encode(given), A = "a".repeat(64), B = "b".repeat(64);
const wanted = (bytes) => createHash("sha256").update(bytes).digest("hex"), hex = (bytes) => Buffer.from(bytes).toString("hex");

test("an event of a log of files tells its digest and its name, escapes turned back; another one tells none", () => {
    const told = (event) => readRecorded(text(event)) && [readRecorded(text(event)).digest, readRecorded(text(event)).name];
    assert.deepEqual(told(`${A}  ./a/sold`), [A, "sold"]);
    assert.deepEqual(told(`${A}  sold`), [A, "sold"]);
    assert.deepEqual(told(`\\${A}  ./a\\\\n\\nb\\rc`), [A, "a\\n\nb\rc"]);
    assert.deepEqual(told(`${A}  ./a\\nb`), [A, "a\\nb"]);
    for (const event of ["", "gone  ./sold", `${A.slice(1)}  ./sold`, `${A} ./sold`, `${"x".repeat(64)}  ./sold`, `\\\\${A}  a`]) assert.equal(told(event), null);
});

test("a file is that of each event whose digest and name it has, else whose digest it has, else of none", () => {
    const sold = readRecorded(text(`${A}  ./sold`)), paid = readRecorded(text(`${B}  ./über`));
    assert.deepEqual(matchFile([sold, paid], B, "über"), { match: "same", places: [1] });
    assert.deepEqual(matchFile([sold, sold], A, "sold"), { match: "same", places: [0, 1] });
    assert.deepEqual(matchFile([sold, paid], A, "paid"), { match: "renamed", places: [0] });
    assert.deepEqual(matchFile([null, paid], A, "sold"), { match: "other", places: [] });
    assert.deepEqual(matchFile([null, null], A, "sold"), { match: "no entry", places: [] });
    assert.deepEqual(matchFile([readRecorded(text(`${A}  -`))], A, "any"), { match: "same", places: [0] });
    assert.deepEqual(matchFile([readRecorded(text(`${A}  ./-`))], A, "any"), { match: "renamed", places: [0] });
    assert.deepEqual(matchFile([null], B, "any", [B]), { match: "same", places: [0] });
    assert.deepEqual(matchFile([sold], B, "sold", [B]), { match: "other", places: [] });
    assert.deepEqual(matchFile([null, paid], A, "sold", [A, B]), { match: "same", places: [0] });
    assert.deepEqual(matchFile([null], A, "sold", [B]), { match: "no entry", places: [] });
    assert.deepEqual(matchFile([readRecorded(text(`${A}  -`))], A, "sold"), { match: "same", places: [0] });
    assert.equal(wholeDigest(text("")), "e3b0c44298fc1c149afbf4c8996fb92427ae41e4649b934ca495991b7852b855");
});

test("the page's own sum of any pieces is SHA-256", () => {
    const bytes = Uint8Array.from({ length: 1000 }, (_, at) => (at * 7919) % 251);
    for (const size of [0, 1, 3, 55, 56, 63, 64, 65, 119, 120, 128, 1000]) {
        for (const piece of [1, 7, 63, 64, 65, 1000]) {
            const sum = new Sha256();
            for (let at = 0; at < size; at += piece) sum.add(bytes.subarray(at, Math.min(size, at + piece)));
            assert.equal(hex(sum.end()), wanted(bytes.subarray(0, size)), `${size} bytes by ${piece}`);
        }
    }
});

test("a document's digest is the browser's, and of one that it can't take whole the page's own", async () => {
    const bytes = text("a deed".repeat(800_000)), blob = new Blob([bytes]), seen = [];
    assert.deepEqual(await digestOfBlob(blob), { digest: wanted(bytes), by: "the browser" });
    assert.deepEqual(await digestOfBlob(blob, (at) => seen.push(at), crypto.subtle, 100), { digest: wanted(bytes), by: "this page's script" });
    assert.deepEqual(await digestOfBlob(new Blob([]), () => {}, null), { digest: wanted(text("")), by: "this page's script" });
    assert.equal(seen.at(-1), bytes.length);
});
