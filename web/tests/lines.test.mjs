import assert from "node:assert/strict";
import { readFileSync } from "node:fs";
import { test } from "node:test";
import { anchorsText, chooseLines, contradicted, contradictions, heldAs, linesThatCount, pickBy, readLines, twoLines } from "../page/lines.mjs";
import { missingWords } from "../page/words.mjs";

const A = "a".repeat(64), B = "b".repeat(64);
const line = (service, step, authenticator = A) => ({ service, step, authenticator });
const plain = ({ service, step, authenticator, number }) => [service, step, authenticator, number];

test("lines are read with the numbers of their lines; empty ones, blanks around and ends of Windows are passed over", () => {
    const { lines, bad } = readLines(`\n  shop 2 ${A}\r\nmaker-1 1099511627775 ${B.toUpperCase()}  \n\n`);
    assert.deepEqual(lines.map(plain), [["shop", 2, A, 2], ["maker-1", 1099511627775, B, 3]]);
    assert.deepEqual(bad, []);
});

test("bytes are read as UTF-8, with or without a mark, and as UTF-16 by its mark", () => {
    const text = `shop 2 ${A}\n`, wide = (swap) => Uint8Array.from([...`\ufeff${text}`].flatMap((it) => [it.charCodeAt(0) & 255, it.charCodeAt(0) >> 8]).map((it, at, all) => (swap ? all[at ^ 1] : it)));
    for (const bytes of [new TextEncoder().encode(text), new TextEncoder().encode(`\ufeff${text}`), wide(false), wide(true)]) assert.equal(readLines(bytes).lines.length, 1);
});

test("lines are taken as weft keeps them, with the day and how they came; those that were seen to contradict each other do, and one that came by a key alone is found alone", () => {
    const kept = readLines(`shop 2 ${A} 2026-11-29T09:40:00Z by mail from Anna\nbank 1 ${A} 2026-11-29T09:40:00Z\nport 3 ${B} 2026-11-29T09:40:00Z signed by anna SHA256:${"x".repeat(43)}\n`);
    assert.deepEqual(kept.lines.map(({ service, step, day, how }) => [service, step, day, how]), [["shop", 2, "2026-11-29", "by mail from Anna"], ["bank", 1, "2026-11-29", ""]]);
    assert.deepEqual([kept.found.map(plain), kept.bad], [[["port", 3, B, 3]], []]);
    assert.deepEqual(readLines(kept.found.map(({ service, step, authenticator, how }) => `${service} ${step} ${authenticator} 2026-11-29T09:40:00Z ${how}`).join("\n")).lines, []);
    for (const mark of ["contradiction", "chosen"]) {
        const { lines } = readLines(`shop 2 ${A} 2026-11-29T09:40:00Z by mail\n${mark}: shop 2 ${A} ${B} 2026-11-30T09:40:00Z\n`);
        assert.deepEqual(contradictions(lines).map(({ service, step, lines: each }) => [service, step, each.length]), [["shop", 2, 2]]);
    }
    for (const behind of ["FALSE, never use it", "2026-11-29 by mail", "by mail 2026-11-29T09:40:00Z"]) assert.deepEqual(readLines(`shop 2 ${A} ${behind}`).lines, [], behind);
});

test("a line that is none is told with its number and why", () => {
    const alone = [`shop 02 ${A}`, `shop -1 ${A}`, `${"s".repeat(17)} 1 ${A}`, `shop 1099511627776 ${A}`], given = ["", `shop 2 ${A}a`, ...alone, `shop 0 ${A}`, "<b>shop</b>"];
    const { lines, bad } = readLines(given.join("\n")), other = readLines(alone.join("\n"));
    assert.deepEqual([lines, bad.map(({ number }) => number), bad.map(({ typed }) => typed?.fault)], [[], [2, 3, 4, 5, 6, 7], ["digits long", ...Array(4).fill("digits alone"), undefined]]);
    assert.match(bad[5].why, /step 0/);
    assert.deepEqual(other.bad.map(({ number }) => number), [1, 2, 3, 4]);
    assert.match(other.bad[3].why, /at most 1099511627775/);
    assert.deepEqual(readLines(["Shop 2 " + A, `shop 3  ${A}`].join("\n")).lines.map(plain), [["shop", 2, A, 1], ["shop", 3, A, 2]]);
});

test("lines of one service and step with different authenticators contradict each other; equal ones and other steps don't", () => {
    assert.deepEqual(contradictions([line("shop", 2), line("shop", 2), line("shop", 3, B), line("bank", 2, B)]), []);
    const found = contradictions([line("shop", 2), line("shop", 2), line("shop", 2, B)]);
    assert.deepEqual(found.map((it) => [it.service, it.step, it.lines.map((at) => at.authenticator)]), [["shop", 2, [A, B]]]);
});

/** A verifier that wants these lines, one after another, and then accepts. */
const wanting = (...wanted) => (anchors) => {
    const missing = wanted.find((it) => !anchors.includes(`${it} `));
    return missing ? { status: 1, text: `rejected 3 NotHeld ${missing}\n` } : { status: 0, text: "accepted exists\n" };
};
const none = { own: [], sent: [], counted: new Set(), chosen: new Map() };

test("of many lines those are held that the verifier asks for, and no other", () => {
    const own = [line("a", 1), line("a", 2), line("b", 7), line("c", 1)];
    const { answer, anchors, missing } = chooseLines(wanting("b 7", "a 2"), pickBy({ ...none, own }));
    assert.equal(answer.status, 0);
    assert.equal(anchorsText(anchors), `b 7 ${A}\na 2 ${A}\n`);
    assert.equal(missing, undefined);
});

test("a line that isn't there is told, with those that were held before", () => {
    const { answer, anchors, missing } = chooseLines(wanting("b 7", "a 2"), pickBy({ ...none, own: [line("b", 7)] }));
    assert.deepEqual([answer.text, anchorsText(anchors), missing], ["rejected 3 NotHeld a 2\n", `b 7 ${A}\n`, { service: "a", step: 2, offered: [] }]);
});

test("all lines that are missing are told at once, with what the sender offers of each", () => {
    const sent = [line("c", 3)], { missing, anchors } = chooseLines(wanting("b 7", "a 2", "c 3", "d 1"), pickBy({ ...none, own: [line("a", 2)], sent }));
    assert.deepEqual([anchorsText(anchors), missing], ["", { service: "b", step: 7, offered: [], others: [{ service: "c", step: 3, offered: sent }, { service: "d", step: 1, offered: [] }] }]);
    const { sentence, todo } = missingWords(missing, []);
    assert.equal(sentence, "The line of step 7 of b is missing. The line of step 3 of c is missing. Only the sender gave you one. The line of step 1 of d is missing.");
    assert.match(todo, /neither b nor whoever.* neither c nor whoever.* neither d nor whoever.*A line that you get only now shows nothing about the time before\.$/);
});

test("a sender's line counts only once it is said so, and none of yours is passed over for it", () => {
    const sent = [line("a", 2)], given = { ...none, sent };
    assert.deepEqual(chooseLines(wanting("a 2"), pickBy(given)).missing, { service: "a", step: 2, offered: sent });
    assert.equal(chooseLines(wanting("a 2"), pickBy({ ...given, counted: new Set([`a 2 ${A}`]) })).answer.status, 0);
    const { anchors } = chooseLines(wanting("a 2"), pickBy({ ...given, own: [line("a", 2, B)], counted: new Set([`a 2 ${A}`]) }));
    assert.equal(anchors[0].authenticator, B);
});

test("of lines of yours that contradict each other none counts until one is chosen", () => {
    const own = [line("a", 2), line("a", 2, B)], given = { ...none, own };
    assert.deepEqual(chooseLines(wanting("a 2"), pickBy(given)).missing, { service: "a", step: 2, two: own });
    assert.equal(chooseLines(wanting("a 2"), pickBy({ ...given, chosen: new Map([["a 2", B]]) })).anchors[0].authenticator, B);
});

test("two steps of one service that are asked for are told: one line of a service counts", () => {
    const { missing } = chooseLines(wanting("a 2", "a 5"), pickBy({ ...none, own: [line("a", 2), line("a", 5)] }));
    assert.deepEqual(missing, { service: "a", step: 5, other: 2 });
});

test("another answer of the verifier ends the choice", () => {
    for (const text of ["rejected 1 Malformed 5\n", "rejected 2 BadOrder\n", "unreadable anchors line 65\n"]) {
        assert.deepEqual(chooseLines(() => ({ status: 1, text }), () => assert.fail()), { answer: { status: 1, text }, anchors: [] });
    }
});

test("a sender's line that contradicts one of yours is told beside it", () => {
    const own = [line("a", 2), line("a", 3)], sent = [line("a", 2), line("a", 3, B), line("b", 1)];
    assert.deepEqual(contradicted(own, sent), [{ service: "a", step: 3, lines: [own[1], sent[1]] }]);
});

/** What weft's own tests say of lines that files tell: the page says the same. */
const { beside, together } = JSON.parse(readFileSync(new URL("../../tests/deciding/held_lines.json", import.meta.url)));
const tabled = (text) => ((words) => ({ service: words[0], step: Number(words[1]), authenticator: words[2].repeat(64) }))(text.split(" "));

test("a line that a file tells is to yours what weft says that it is", () => {
    for (const { told, yours, chosen, is } of beside) {
        const choice = chosen && tabled(chosen), choices = new Map(choice ? [[`${choice.service} ${choice.step}`, choice.authenticator]] : []);
        assert.equal(heldAs(tabled(told), linesThatCount(yours.map(tabled), choices)), is, JSON.stringify({ told, yours, chosen }));
    }
    const own = [line("a", 2), line("a", 2, B), line("a", 3)];
    assert.deepEqual(linesThatCount(own, new Map([["a 2", B]])), [own[1], own[2]]);
    assert.deepEqual(linesThatCount(own, new Map([["a 2", "c".repeat(64)]])), own);
});

test("files that tell two lines of one step are told as weft tells them", () => {
    for (const { told, pairs } of together) {
        assert.deepEqual(twoLines(told.map(([place, text]) => [place, tabled(text)])).map(({ first, second }) => [first, second]), pairs);
    }
});
