import assert from "node:assert/strict";
import { readFileSync } from "node:fs";
import { test } from "node:test";
import { findSlip, readTyped } from "../page/letters.mjs";
import { readLines } from "../page/lines.mjs";
import { typedWords } from "../page/words.mjs";

const TEXTS = JSON.parse(readFileSync(new URL("../../tests/deciding/letters.json", import.meta.url)));

test("a text that somebody typed is read as weft reads it, with the same that is wrong", () => {
    for (const { name, text, typed, others } of TEXTS) assert.deepEqual(readTyped(text), { typed, others }, name);
});

test("digests that differ in one digit, or in two swapped ones, are told; others aren't", () => {
    assert.deepEqual(findSlip("5585", "5595"), { where: "digit 3 of group 1", one: "8", other: "9" });
    assert.deepEqual(findSlip("12345678", "12354678"), { where: "digit 4 of group 1 and digit 1 of group 2", one: "45", other: "54" });
    for (const [one, other] of [["5585", "5585"], ["1234", "1299"], ["1234", "3214"]]) assert.equal(findSlip(one, other), null);
});

test("a letter gives its line, and what was typed wrong is told in the place of that it is none", () => {
    const at = (name) => readLines(TEXTS.find((it) => it.name === name).text), auth = "5585fc74c8b89378088d61ce37d82efe4c25f9ab0bbeb79b20a4618dce62a486";
    assert.deepEqual(at("a letter as weft writes it"), { lines: [{ service: "shop", step: 2, authenticator: auth, number: 1 }], bad: [], found: [] });
    assert.deepEqual(at("a letter in a mail that was quoted"), { lines: [], bad: [], found: [{ service: "shop", step: 2, authenticator: auth, number: 2 }] });
    assert.deepEqual(["a line that was taken out", "a letter that calls a line false", "a mark of a file of kept lines"].map((it) => at(it).lines.map(({ service }) => service)), [["bank"], [], ["shop", "shop"]]);
    const whole = `shop 2 ${auth}`, amid = [`Forged:\n${whole}\n`, `# Forged, all of them:\n${whole}\n`, `${whole}\nThat is forged.`, `# Forged:\u2028${whole}`, `# ${whole} is forged, and so is\n${whole}`];
    for (const text of amid) assert.deepEqual([readLines(text).lines, readLines(text).found.map(({ step }) => step)], [[], [2]], text);
    for (const text of [`# ${whole}\n${whole}\n`, `# ${whole} 2026-11-29T09:40:00Z by mail from Anna\n${whole}\n`]) assert.deepEqual(readLines(text).lines.map(({ number }) => number), [2], text);
    assert.equal(readLines(`Forged:${" ".repeat(1 << 20)}\n${whole}\n`).lines.length, 0);
    const { lines, bad } = at("one digit wrong");
    assert.deepEqual([lines, bad.map(({ number }) => number)], [[], [1]]);
    assert.match(typedWords(bad[0].typed), /^Typed rightly\? Row 1 of the line of step 2 of shop and its two letters don't fit.* If one digit is wrong, it is in that row digit 4 of group 1: 5, and not 6\.$/);
    assert.match(typedWords(at("63 digits").bad[0].typed), /^The line of step 2 of shop ends short, after 63 of 64 digits: group 16 has 3\.$/);
    assert.equal(at("prose").bad.length, 1);
});
