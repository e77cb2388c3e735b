import assert from "node:assert/strict";
import { test } from "node:test";
import { readReport } from "../timeweave.mjs";
import { drawing, isShownAsLines, legendOf, pointWords } from "../page/picture.mjs";

const A = "a".repeat(64), anchor = (service, step) => ({ service, step, authenticator: A, from: { isSender: false } });
const drawn = (anchors, ...lines) => drawing(readReport(`${lines.join("\n")}\n`), anchors);
const columns = ({ points }) => Object.fromEntries(points.map(({ service, step, column }) => [`${service} ${step}`, column]));

test("each point stands behind those before it, on its own line and over a hop", () => {
    const it = drawn([anchor("a", 3), anchor("b", 5)], "accepted precedes", "event a 1 0 61", "event b 5 0 62", "hop a 2 b 4");
    assert.deepEqual(columns(it), { "a 1": 0, "a 2": 1, "a 3": 2, "b 4": 2, "b 5": 3 });
    assert.deepEqual(it.services, ["a", "b"]);
    assert.deepEqual(it.spans, [{ from: ["a", 2], to: ["a", 3] }]);
    assert.deepEqual(it.arrows.map(({ kind }) => kind), ["bound"]);
    assert.deepEqual(pointWords(it).map(({ place, says }) => `${place}: ${says}`), [
        "a, step 1: event “a”", "a, step 2: ", "b, step 4: received step 2 of a", "a, step 3: your line", "b, step 5: event “b”; your line",
    ]);
});

test("a thread that is carried is drawn so, and no line binds it", () => {
    const it = drawn([anchor("b", 5)], "accepted precedes", "event a 1 0 61", "event b 5 0 62", "hop a 1 b 4", `carried a 1 ${A}`);
    assert.deepEqual([it.arrows[0].kind, it.spans], ["carried", []]);
    assert.match(legendOf(it, true), /broken/);
});

test("the other kinds are drawn: a line that was received, one that wasn't, and a link", () => {
    const received = ["accepted thread", `thread b 5 a 3 ${A} 4`];
    assert.deepEqual(columns(drawn([anchor("b", 6)], ...received)), { "a 3": 0, "b 4": 1, "b 5": 2, "b 6": 3 });
    assert.equal(drawn([anchor("b", 6)], ...received).arrows[0].kind, "carried");
    assert.equal(drawing(readReport(`${received.join("\n")}\n`), [anchor("b", 6)], [anchor("a", 3)]).arrows[0].kind, "bound");
    assert.deepEqual(drawn([anchor("b", 6)], "accepted absent", "absent b 5 a 3").arrows, [{ from: ["a", 3], to: ["b", 5], kind: "absent" }]);
    assert.deepEqual(drawn([anchor("a", 9)], "accepted link", `link a 3 9 ${A}`).spans, [{ from: ["a", 3], to: ["a", 9] }]);
    assert.deepEqual(drawn([anchor("a", 1)], "accepted exists", "event a 1 0 61").spans, []);
});

test("what is wider than the room, or of many services, is shown as a list", () => {
    const it = drawn([anchor("a", 3), anchor("b", 5)], "accepted precedes", "event a 1 0 61", "event b 5 0 62", "hop a 2 b 4");
    assert.deepEqual([isShownAsLines(it, 1000), isShownAsLines(it, 300)], [true, false]);
    const many = drawn([], "accepted precedes", "event s0 1 0 61", "event s9 5 0 62", ...Array.from({ length: 9 }, (_, at) => `hop s${at} 1 s${at + 1} 1`));
    assert.equal(isShownAsLines(many, 10000), false);
    assert.deepEqual(many.points.map(({ service, step }) => `${service} ${step}`).slice(0, 3), ["s0 1", "s1 1", "s2 1"]);
});
