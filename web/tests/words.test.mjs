import assert from "node:assert/strict";
import { test } from "node:test";
import { readReport } from "../timeweave.mjs";
import { Foreign, aloneWords, carriedNotes, conflictWords, escaped, eventWords, forkNotes, mapReasonWords, missingWords, reasonWords, refutedWords, shownLineNotes, shownSentence, shownText, askForLinks, boundSentence, timeNote, timeWords, wordNotes, documentWords } from "../page/words.mjs";

const A = "a".repeat(64), B = "b".repeat(64), bytes = (text) => new TextEncoder().encode(text);
const report = (...lines) => readReport(`${lines.join("\n")}\n`);

test("an event is told by its text where that can be shown as it is, else by its size", () => {
    const words = (text, most) => `${eventWords(bytes(text), most)}`;
    assert.equal(words("milk"), "“milk”");
    assert.equal(words("<b>milk</b>"), "“<b>milk</b>”");
    assert.equal(words(""), "(no bytes)");
    assert.equal(words("first\nsecond"), "“first…”");
    assert.equal(words("x".repeat(100), 10), `“${"x".repeat(9)}…”`);
    assert.equal(words("Käse"), "“\u2068Käse\u2069”");
    for (const strange of ["a\u202eb", "a\u0000b", "a\u2066b", "a\u2028b", "\u001b[31m"]) assert.equal(shownText(bytes(strange)), null);
    assert.equal(eventWords(Uint8Array.of(0xff, 0xfe)), "(2 bytes that are no text)");
});

test("an event that speaks in the page's voice stays a piece of its own, and what could end its quotes is escaped", () => {
    const evil = "paid” on 3 May 2019, seen by the notary. It also recorded “more";
    const told = shownSentence(report("accepted exists", `event shop 1 0 ${Buffer.from(evil).toString("hex")}`), [{ service: "shop", step: 1 }]);
    assert.deepEqual(told.pieces.filter((it) => it instanceof Foreign).map(({ text }) => text), [escaped(evil)]);
    assert.ok(told.pieces.every((it) => it instanceof Foreign || !it.includes("notary")));
    assert.equal(`${told}`.match(/[“”"]/g).length, 2);
    assert.equal(escaped('a"b\\c'), 'a\\"b\\\\c');
    assert.equal(escaped("a\u3164b\ufe0f"), "a\\u{3164}b\\u{fe0f}");
    assert.equal(escaped("a  b     c"), "a  b  \\u{20}\\u{20}\\u{20}c");
});

test("a time is a date where it is one", () => {
    assert.equal(timeWords(0), "1970-01-01 00:00:00 UTC");
    assert.equal(timeWords(253402300799), "9999-12-31 23:59:59 UTC");
    assert.equal(timeWords(1099511627775), "second 1099511627775 since 1970");
});

test("each kind has its sentence", () => {
    const sentence = (...lines) => `${shownSentence(report(...lines))}`;
    assert.equal(sentence("accepted exists", "event shop 1 1 6d696c6b"), "shop recorded in its step 1, as event 1: “milk”.");
    assert.equal(sentence("accepted precedes", "event a 1 0 61", "event b 5 0 62", "hop a 1 b 2"),
        "a recorded in its step 1, as event 0: “a”. b recorded in its step 5, as event 0: “b”. The first came before the second.");
    assert.match(sentence("accepted precedes", "event a 1 0 61", "event a 5 0 62"), /The first came before the second: step 1 is before step 5 in one history\.$/);
    assert.equal(sentence(`accepted thread`, `thread b 5 a 3 ${A} 4`), `b had received step 3 of a, authenticator ${A}, by its step 5, at its step 4.`);
    assert.equal(sentence("accepted absent", "absent b 5 a 3"),
        "b had received no step 3 of a up to its step 5, if it kept the rules; an audit of its history shows whether it did.");
    assert.equal(sentence("accepted link", `link a 3 9 ${A}`), `Step 3 of a, seen from its step 9, has the authenticator ${A}: both lines are of one history.`);
    assert.match(timeNote(report("accepted exists", "event a 1 0 -", "time a 1 60").events[0]), /^a claims the time 1970-01-01 00:01:00 UTC for its step 1; whether that is right isn't shown/);
});

test("a carried thread is its receiver's word, held against the lines of yours", () => {
    const carrying = report("accepted precedes", "event a 1 0 61", "event b 5 0 62", "hop a 1 b 2", `carried a 1 ${A}`);
    const line = (authenticator) => [{ service: "a", step: 1, authenticator }];
    assert.match(carriedNotes(carrying, [])[0], /^Not shown: only b says that step 1 of a was so/);
    assert.match(carriedNotes(carrying, line(A))[0], /^That is the line of step 1 of a that you kept/);
    assert.match(carriedNotes(carrying, line(B))[0], /two histories/);
    assert.equal(boundSentence(), "Every hop is bound by a line that you hold.");
});

test("what is on somebody's word alone says so, each sentence of it by itself, and what is shown by lines is told apart", () => {
    const way = (...carried) => report("accepted precedes", "event a 1 0 61", "event c 5 0 62", "hop a 1 b 2", "hop b 3 c 4", ...carried.map((name) => `carried ${name} ${name === "a" ? 1 : 3} ${A}`));
    assert.equal(`${shownSentence(way("a"))}`, "By b's word alone: a recorded in its step 1, as event 0: “a”. By that word, too, it came before step 5 of c.");
    assert.equal(`${shownSentence(way("b"))}`, "a recorded in its step 1, as event 0: “a”. c recorded in its step 5, as event 0: “b”. By c's word alone: The first came before the second.");
    assert.match(`${shownSentence(way("a", "b"))}`, /^By b's and c's word alone: a recorded/);
    const told = (...carried) => wordNotes(way(...carried), []).map((it) => `${it}`);
    assert.deepEqual(told("a"), [
        "Shown by the lines that counted: c recorded in its step 5, as event 0: “b”.", "Shown by them, too: b received this account of step 1 of a at its step 2.",
        "Not shown: only b says that step 1 of a was so, and could have made it up.",
    ]);
    // (where the receiver's own step is carried too, that it received anything is no more than a word)
    assert.deepEqual(told("a", "b").filter((it) => it.startsWith("Shown by them")), ["Shown by them, too: c received this account of step 3 of b at its step 4."]);
    assert.match(told("b")[0], /both events, each in its own service's history/);
    assert.match(askForLinks(way("a", "b")), /^Ask whoever sent it for the same proof with links from step 1 of a and step 3 of b, .* neither that service, nor b and c, nor the sender\.$/);
    const same = { document: { name: "x" }, match: "same" };
    assert.match(`${documentWords(way("a"), { ...same, places: [0] })}`, /^By b's word alone: /);
    assert.doesNotMatch(`${documentWords(way("a"), { ...same, places: [1] })}`, /word alone/);
    assert.doesNotMatch(`${documentWords(way("b"), { ...same, places: [0] })}`, /word alone/);
});

test("a line that is shown is held against the lines of yours", () => {
    const received = report("accepted thread", `thread b 5 a 3 ${A} 4`);
    assert.match(shownLineNotes(received, [])[0], /Whether a made that line isn't shown/);
    assert.match(shownLineNotes(received, [{ service: "a", step: 3, authenticator: A }])[0], /^That is the line of step 3 of a that you kept/);
    assert.match(shownLineNotes(received, [{ service: "a", step: 3, authenticator: B }])[0], /two histories/);
    assert.deepEqual(shownLineNotes(report("accepted absent", "absent b 5 a 3"), []), []);
});

test("each reason has a sentence and what to do", () => {
    const texts = ["rejected 1 Malformed 5", "rejected 2 BadOrder", "rejected 4 BadPath 0", "rejected 5 BadOpening 2", "rejected 6 BadEvent 0", "rejected 7 BadTree 1"];
    const told = texts.map((text) => reasonWords(`${text}\n`, 100));
    assert.equal(new Set(told.map(({ sentence }) => sentence)).size, texts.length);
    assert.ok(told.every(({ sentence, todo }) => sentence && todo));
    assert.match(reasonWords("rejected 1 Malformed 100\n", 100).sentence, /changed at byte 100\./);
    assert.match(told[3].sentence, /part 2/);
});

test("a line that can't be held is told by what to do about it", () => {
    const own = [{ service: "a", step: 7 }, { service: "a", step: 3 }, { service: "a", step: 3 }];
    assert.match(missingWords({ service: "a", step: 2, offered: [] }, own).todo, /Or ask for the proof under a step of a that you hold a line of: 3 and 7\. A line that you get only now shows nothing about the time before/);
    assert.match(missingWords({ service: "a", step: 2, offered: [{}] }, []).sentence, /Only the sender gave you one/);
    assert.match(missingWords({ service: "a", step: 2, two: [{}, {}] }, []).sentence, /2 different ones/);
    assert.match(missingWords({ service: "a", step: 5, other: 2 }, []).sentence, /two steps of a, 2 and 5/);
});

test("a map, evidence and a contradiction have their sentences", () => {
    const shown = (given) => shownSentence({ kind: Object.keys(given)[0], ...given }, []);
    const map = { service: "shop", step: 3, peer: "bank", low: 0, upto: 9 };
    assert.equal(shown({ map }), 
        "If shop and bank kept the rules: before its step 3, shop had received no step of bank. Up to its step 9, bank received neither step 3 of shop nor a later one. "
        + "An audit of their histories shows whether they did.");
    assert.match(shown({ map: { ...map, low: 2, high: 5 } }), /had received step 2 of bank, and no later one\. Step 5 of bank is the first that received step 3 of shop/);
    const accused = (by) => ({ thread: { service: "liar", step: 1, authenticator: A }, by, archived: 2 });
    assert.match(shown({ fork: { first: accused("bank"), second: accused("gazette") } }), /No history of liar has both: two were shown in its name, or a receiver made one up/);
    const alone = { first: accused("bank"), second: accused("bank") }, broken = { service: "bank", rule: 4, name: "TwoEntries", lines: [] };
    assert.match(forkNotes({ fork: { first: accused("bank"), second: accused("gazette") } })[0], /^Who broke a rule isn't shown: liar may have, or whoever gave bank and gazette/);
    assert.match(forkNotes({ fork: alone })[0], /who could have made up both: against liar nothing is shown/);
    assert.match(forkNotes({ fork: alone, broken })[0], /^bank, which received both, broke a rule by that, .* bank received one step of a peer twice.* Against liar nothing is shown\.$/);
    const told = { service: "keeper", rule: 1, name: "Denied", lines: [], received: { service: "keeper", thread: { service: "shop", step: 3 }, archived: 1 }, absent: { step: 4 } };
    assert.match(conflictWords({ ...told, isJoined: true }).sentence, /whoever keeps keeper broke its rules\. Against the others that they name nothing is shown/);
    assert.match(conflictWords({ ...told, isJoined: false }).sentence, /or it has two histories, or one of both lines isn't its own/);
    const lines = ["novel keeper 7"];
    assert.match(conflictWords({ service: "keeper", rule: 99, name: "Later", lines, isJoined: true }).sentence, /rule 99 of histories, Later, broken: novel keeper 7\. .* whoever keeps keeper broke/);
    const own = { service: "keeper", rule: 3, name: "ReceivedLater", lines };
    assert.match(conflictWords({ ...own, isJoined: true }).sentence, /ReceivedLater, broken: the archive of a step of keeper has what a later step received \(novel keeper 7\)/);
    assert.match(refutedWords(own).sentence, /^It CONTRADICTS ITSELF, as it shows rule 3 of histories/);
});

test("what is wrong with maps and evidence is told", () => {
    assert.match(mapReasonWords("unreadable high byte 7\n").sentence, /^The high file isn't accepted\. .* changed at byte 7\./);
    assert.match(mapReasonWords("rejected 4 BadPath 1\n").sentence, /^The high file isn't accepted\. It isn't of the history of your lines/);
    assert.match(mapReasonWords("rejected 2 BadOrder\n").sentence, /^Its steps aren't in order/);
    assert.match(aloneWords({ isLow: false, service: "shop", step: 3, peer: "bank" }).todo, /low file too/);
    assert.match(reasonWords("rejected 10 Part 2 4\n", 9).sentence, /^The proof of thread 2 in it isn't accepted \(reason 4\)/);
    assert.match(reasonWords("rejected 11 NoConflict\n", 9).sentence, /^The two lines in it aren't shown to contradict each other/);
});
