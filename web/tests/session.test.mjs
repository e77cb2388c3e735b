import assert from "node:assert/strict";
import { readFileSync } from "node:fs";
import { test } from "node:test";
import { kindOf, sizeText } from "../page/files.mjs";
import { drawing } from "../page/picture.mjs";
import { DOCUMENT, OWN, SENT, Session, readFile, takeFile } from "../page/session.mjs";
import { headOf, summaryWords } from "../page/view.mjs";
import { strayWords } from "../page/words.mjs";

const text = (given) => new TextEncoder().encode(given), line = `shop 2 ${"a".repeat(64)}\n`;
const held = (name, bytes, place) => readFile({ name, size: bytes.length, bytes, place });
const example = (name, place) => held(name, new Uint8Array(readFileSync(new URL(`../examples/${name}`, import.meta.url))), place);

test("a file is told by its first bytes", () => {
    const kinds = [["TWP1\u0001", "proof"], ["TWP1\u0005", "proof"], ["TWP1\u0006", "map"], ["TWP1\u0007", "map"], ["TWV1", "evidence"], ["TWT1", "message"], ["TWR1", "receipt"], ["TWE1", "events"], ["TWH1", "history"]];
    for (const [begin, kind] of kinds) assert.equal(kindOf(text(begin)).kind, kind);
    for (const begin of ["", "TWP2", "twp1", line]) assert.equal(kindOf(text(begin)), undefined);
    assert.deepEqual([1, 693, 693_000, 200_000_000].map(sizeText), ["1 byte", "693 bytes", "693 KB", "200 MB"]);
});

test("lines among what was sent are the sender's; what is neither lines nor a file of Timeweave isn't judged, and may be the document", () => {
    assert.deepEqual([held("a", text(line), SENT).kind, held("a", text(line), SENT).lines[0].from.isSender], ["lines", true]);
    assert.equal(held("a", text(line), OWN).lines[0].from.isSender, false);
    assert.deepEqual([held("a", text("junk"), SENT).kind, held("a", text("junk"), SENT).belongs, held("a", text(line), SENT).belongs], ["unknown", DOCUMENT, OWN]);
    assert.deepEqual(["junk", line, "TWP1\u0001"].map((it) => held("a", text(it), DOCUMENT)).map(({ kind, belongs }) => [kind, belongs]), [["document", undefined], ["document", OWN], ["document", SENT]]);
    assert.match(held("a", text("junk"), OWN).notes[0], /no line in it/);
    assert.deepEqual([held("a", text("TWP1\u0001"), OWN).place, held("a", text("TWP1\u0001"), OWN).kind], [SENT, "proof"]);
});

test("of a longer file the front is read, and no half line of it counts", async () => {
    const long = new Blob([line.repeat(80_000)]), file = await takeFile(long, "long", OWN);
    assert.equal(file.size, line.length * 80_000);
    assert.equal(file.lines.length, Math.floor(5_242_880 / line.length));
    assert.deepEqual(file.bad, []);
    assert.match(file.notes[0], /longer than any file of lines/);
});

test("a file is held once, and what was chosen is forgotten with the last one", () => {
    const session = new Session(), file = held("a", text(line), OWN);
    assert.deepEqual([session.add(file), session.add(held("a", text(line), OWN)), session.add(held("a", text(line), SENT))], [true, false, true]);
    session.counted.add("shop 2");
    session.files.slice().forEach((it) => session.remove(it));
    assert.equal(session.counted.size, 0);
});

/** A verifier that has these functions: of each the texts, by the anchors that it is given. */
const verifier = (calls) => {
    const ask = (name, ...files) => {
        const text = calls[name.replace("timeweave_", "")](...files);
        return { status: text.startsWith("accepted") ? 0 : text.startsWith("unreadable") ? 9 : 1, text };
    };
    return { has: (name) => name.replace("timeweave_", "") in calls, ask, judge: (proof, anchors) => ask("timeweave_verify", proof, anchors) };
};

test("a proof is judged under the lines that count, and a fault of the module is kept", () => {
    const session = new Session(), asked = [];
    const verify = (proof, anchors) => (asked.push(anchors.length), anchors ? "accepted exists\nevent shop 1 1 6d696c6b\n" : "rejected 3 NotHeld shop 2\n");
    session.add(example("record.proof", SENT));
    assert.deepEqual(session.judge(verifier({ verify }), session.subjects[0]).missing, { service: "shop", step: 2, offered: [] });
    session.add(example("shop.lines", OWN));
    asked.length = 0;
    const judged = session.judge(verifier({ verify, strict: verify }), session.subjects[0]);
    assert.equal(judged.report.kind, "exists");
    assert.deepEqual(asked, [0, 72, 72]);
    const fails = () => { throw new WebAssembly.RuntimeError("unreachable"); };
    assert.equal(session.judge(verifier({ verify: fails }), session.subjects[0]).fault.message, "unreachable");
});

const name = (it) => it.padEnd(16, "\0"), step = (it) => `${"\0".repeat(7)}${String.fromCharCode(it)}`;
const low = (at, top = 9) => held(`low ${at}`, text(`TWP1\u0006${name("shop")}${step(at)}${name("bank")}${step(top)}`), SENT);
const high = (at, top = 9) => held(`high ${at}`, text(`TWP1\u0007${name("bank")}${step(top)}${name("shop")}${step(at)}`), SENT);

test("a low and a high map file of one step and one peer are judged together, and one without another is told", () => {
    const session = new Session(), checkmap = (one, other, anchors) => (anchors ? "accepted map\nlow 1\nhigh none\nupto 9\n" : "rejected 3 NotHeld shop 2\n");
    for (const file of [low(3), high(3), high(4)]) session.add(file);
    assert.deepEqual(session.subjects.map(({ files, isAlone }) => [files.map((it) => it.name).join(), isAlone]), [["low 3,high 3", undefined], ["high 4", true]]);
    assert.equal(session.judge(verifier({}), session.subjects[0]).lacks, true);
    assert.equal(session.judge(verifier({ checkmap }), session.subjects[0]).missing.service, "shop");
    session.add(example("shop.lines", OWN));
    const { map } = session.judge(verifier({ checkmap }), session.subjects[0]).report;
    assert.deepEqual([map.service, map.step, map.peer, map.low, map.high, map.upto], ["shop", 3, "bank", 1, undefined, 9]);
});

test("evidence is judged under the lines that its two proofs ask for", () => {
    const session = new Session(), asked = [];
    const verify = (proof, anchors) => {
        if (proof.length > 10) return "rejected 1 Malformed 10\n";
        return anchors.includes(proof[0] === 65 ? "shop 2" : "bank 1") ? "accepted thread\n" : `rejected 3 NotHeld ${proof[0] === 65 ? "shop 2" : "bank 1"}\n`;
    };
    const accused = `${"a".repeat(64)}`, checkfork = (evidence, anchors) => (asked.push(anchors), `accepted fork\nfirst x 1 ${accused} shop 2\nsecond x 1 ${"b".repeat(64)} bank 1\n`);
    session.add(held("evidence", text(`TWV1${"A".repeat(10)}${"B".repeat(10)}link`), SENT));
    session.add(held("lines", text(line + `bank 1 ${"b".repeat(64)}\n`), OWN));
    const { report, anchors } = session.judge(verifier({ verify, checkfork }), session.subjects[0]);
    assert.deepEqual([anchors.length, asked.length, report.fork.first.by, report.fork.second.archived], [2, 1, "shop", 1]);
});

test("evidence of which a proof is none asks for no line", () => {
    const session = new Session();
    const verify = (proof) => (proof.length > 10 ? "rejected 1 Malformed 10\n" : proof[0] === 65 ? "rejected 3 NotHeld shop 2\n" : "rejected 1 Malformed 3\n");
    session.add(held("evidence", text(`TWV1${"A".repeat(10)}${"B".repeat(10)}link`), SENT));
    const { missing, answer } = session.judge(verifier({ verify, checkfork: () => "rejected 1 Malformed 17\n" }), session.subjects[0]);
    assert.deepEqual([missing, answer.text], [undefined, "rejected 1 Malformed 17\n"]);
});

test("accepted files are held against each other, and a link joins their lines", () => {
    const session = new Session(), told = (kind) => `accepted ${kind}\nthread bank 9 shop 2 ${"a".repeat(64)} 3\nabsent bank 4 shop 2\n`;
    const contradict = (first, lines, second, others, link) => (link.length ? told("broken-rule") : told("broken-rule-or-fork"));
    for (const file of [held("a", text("TWP1\u0003"), SENT), held("b", text("TWP1\u0004"), SENT)]) session.add(file);
    const judged = session.files.map((file, at) => ({ files: [file], anchors: [], report: { kind: ["thread", "absent"][at], carried: [] } }));
    const [found] = session.conflicts(verifier({ contradict }), judged);
    assert.deepEqual([found.first.name, found.second.name, found.told.isJoined, found.told.received.archived, found.told.absent.step], ["a", "b", false, 3, 4]);
    session.add(held("link", text("TWP1\u0005"), SENT));
    assert.equal(session.conflicts(verifier({ contradict }), judged)[0].told.isJoined, true);
    assert.deepEqual(session.conflicts(verifier({}), judged), []);
    assert.deepEqual(session.conflicts(verifier({ contradict: () => "rejected 11 NoConflict\n" }), judged), []);
});

const X = "a".repeat(64), Y = "b".repeat(64);
/** A verifier of two files under lines of `bank` and of the last step of `shop`: a thread that tells X of step 1 of shop, and a link that tells Y. */
const thread = `accepted thread\nthread bank 9 shop 1 ${X} 3\n`, link = `accepted link\nlink shop 1 4 ${Y}\n`;
const askingFor = (wanted, told) => (file, anchors) => (anchors.includes(wanted) ? told : `rejected 3 NotHeld ${wanted}\n`);
const ofKinds = (file, anchors) => (file[4] === 3 ? askingFor("bank 9", thread) : askingFor("shop 4", link))(file, anchors);
const telling = verifier({ verify: ofKinds, strict: ofKinds });

/** A session of these lines of yours and these kinds of proofs, with what is judged and said first of each. */
function judgedUnder(lines, kinds, chosen = []) {
    const session = new Session();
    session.add(held("mine", text([`bank 9 ${X}`, `shop 4 ${X}`, ...lines].join("\n")), OWN));
    for (const kind of kinds) session.add(held(`sent ${kind}`, text(`TWP1${String.fromCharCode(kind)}`), SENT));
    for (const [key, authenticator] of chosen) session.chosen.set(key, authenticator);
    const judged = session.subjects.map((it) => session.judge(telling, it));
    return { judged, heads: judged.map(headOf), conflicts: session.conflicts(telling, judged) };
}

test("an accepted file that tells another line of a step than yours isn't called shown", () => {
    for (const [lines, look, title] of [[[], "yes", "Shown"], [[`shop 1 ${X}`], "yes", "Shown"], [[`shop 1 ${Y}`], "no", "Not shown: a line of yours contradicts the file"], [[`shop 1 ${X}`, `shop 1 ${Y}`], "no", "Not shown: a line of yours contradicts the file"]]) {
        const [head] = judgedUnder(lines, [3]).heads;
        assert.deepEqual([head.look, head.title], [look, title]);
    }
    const [head] = judgedUnder([`shop 1 ${Y}`], [3]).heads;
    assert.match(head.sentence, /^The line of step 1 of shop that you kept is another one than aaaaaaaaaaaaaaaa\.\. of this file/);
});

test("two lines of yours that contradict each other are told as that, both whole, with where each stands", () => {
    const [{ title, sentence, lines, todo }] = judgedUnder([`shop 1 ${X}`], [5]).heads;
    assert.equal(title, "Not shown: two of your lines contradict each other");
    assert.match(sentence, /^Two of your lines of shop contradict each other: this file goes with the one of step 4, and against the one of step 1\. shop has shown two histories, or/);
    assert.deepEqual(lines.map((it) => [it.step, it.authenticator, it.from.name, it.number]), [[1, X, "mine", 3], [4, X, "mine", 2]]);
    assert.match(todo, /Until that is settled, other verdicts that rest on lines of shop are in doubt too\.$/);
    // (what was received is its receiver's word, so a line of yours stands against that)
    assert.deepEqual(judgedUnder([`shop 1 ${Y}`], [3]).heads[0].lines.map((it) => [it.step, it.authenticator, it.from?.name]), [[1, Y, "mine"], [1, X, undefined]]);
});

test("a line of yours that a proof carries binds its hop, so nothing rests on a word", () => {
    const told = `accepted precedes\nevent shop 1 0 61\nevent bank 9 0 62\nhop shop 1 bank 3\ncarried shop 1 ${X}\n`, judged = (...lines) => {
        const session = new Session(), verify = askingFor("bank 9", told);
        session.add(held("mine", text([`bank 9 ${X}`, ...lines].join("\n")), OWN));
        session.add(held("sent", text("TWP1\u0002"), SENT));
        return session.judge(verifier({ verify, strict: verify }), session.subjects[0]);
    };
    assert.match(headOf(judged()).title, /^Shown in part: on somebody's word/);
    assert.equal(headOf(judged(`shop 1 ${Y}`)).title, "Not shown: a line of yours contradicts the file");
    const bound = judged(`shop 1 ${X}`);
    assert.deepEqual([headOf(bound).title, bound.report.carried, bound.held.map(({ step: at }) => at)], ["Shown", [], [1]]);
    assert.doesNotMatch(`${headOf(bound).sentence}`, /word/);
    const drawn = drawing(bound.report, [...bound.anchors, ...bound.held], bound.own);
    assert.deepEqual([drawn.arrows[0].kind, drawn.points.find((it) => it.service === "shop").anchor.step], ["bound", 1]);
});

test("a line over which you chose another isn't called the one that you hold", () => {
    const both = [`shop 1 ${X}`, `shop 1 ${Y}`], chose = (authenticator) => judgedUnder(both, [3], [["shop 1", authenticator]]);
    assert.deepEqual([chose(X).heads[0].look, chose(Y).heads[0].look], ["yes", "no"]);
    assert.deepEqual(chose(Y).judged[0].own.filter(({ step: at }) => at === 1).map(({ authenticator }) => authenticator), [Y]);
});

test("two accepted files that tell two lines of one step contradict each other, without a function for it too", () => {
    const { heads, judged, conflicts } = judgedUnder([], [3, 5]);
    assert.deepEqual(heads.map(({ look }) => look), ["yes", "yes"]);
    assert.deepEqual(conflicts.map(({ first, second, two }) => [first.name, second.name, two.one.authenticator, two.other.authenticator]), [["sent 3", "sent 5", X, Y]]);
    assert.match(summaryWords(judged, conflicts), /Two files contradict each other: The first file tells a{16}\.\. of step 1 of shop, and the second file b{16}\.\./);
    assert.deepEqual(judgedUnder([], [3]).conflicts, []);
});

test("an accepted file that contradicts itself is never told as shown, nor is anything that it says", () => {
    const session = new Session(), rule = `accepted broken-rule\nrule 2 OwnThread\nthread bank 9 bank 4 ${Y} 3\n`;
    session.add(held("mine", text(`bank 9 ${X}\n`), OWN));
    session.add(held("own", text("TWP1\u0003"), SENT));
    const verify = (file, anchors) => (anchors ? `accepted thread\nthread bank 9 bank 4 ${Y} 3\n` : "rejected 3 NotHeld bank 9\n");
    const of = (contradict) => session.judge(verifier({ verify, strict: verify, contradict }), session.subjects[0]);
    const judged = of((first, lines, second) => (first.join() === second.join() ? rule : "rejected 11 NoConflict\n")), head = headOf(judged);
    assert.deepEqual([head.look, head.title, judged.report], ["no", "Not shown: it contradicts itself", undefined]);
    assert.match(head.sentence, /^It CONTRADICTS ITSELF, as it shows rule 2 of histories, OwnThread, broken: bank received a line of its own/);
    assert.doesNotMatch(summaryWords([judged]), /had received/);
    assert.equal(headOf(of(() => "rejected 11 NoConflict\n")).title, "Shown");
});

test("evidence both of whose lines one service received is put to that service", () => {
    const evidence = (by) => {
        const session = new Session(), verify = (proof, anchors) => (anchors ? "accepted thread\n" : "rejected 3 NotHeld bank 9\n");
        session.add(held("mine", text(`bank 9 ${X}\nport 9 ${X}\n`), OWN));
        session.add(held("evidence", text("TWV1 and more"), SENT));
        const checkfork = () => `accepted fork\nfirst shop 3 ${X} bank 2\nsecond shop 3 ${Y} ${by} 3\n`;
        const receiver = () => `accepted broken-rule\nrule 4 TwoEntries\nthread bank 9 shop 3 ${X} 2\nthread bank 9 shop 3 ${Y} 3\n`;
        return session.judge(verifier({ verify, checkfork, receiver }), session.subjects[0]).report.broken;
    };
    assert.deepEqual([evidence("bank").name, evidence("port")], ["TwoEntries", undefined]);
});

test("that too many files on what was received came to be held against each other is told", () => {
    const judged = (count) => Array.from({ length: count }, () => ({ files: [held("a", text("TWP1\u0003"), SENT)], anchors: [], report: { kind: "thread", carried: [] } }));
    assert.deepEqual([60, 61, 200].map((count) => new Session().uncompared(judged(count))), [0, 1, 140]);
    assert.match(summaryWords([], [], 140), /^140 of the accepted files .* weren't compared with the others/);
});

test("a line of yours of a step that a proof tells and doesn't open isn't passed over", () => {
    const session = new Session(), report = `accepted precedes\nevent shop 1 0 61\nevent bank 9 0 62\nhop shop 2 bank 3\n`;
    session.add(held("mine", text([`bank 9 ${X}`, `shop 2 ${X}`].join("\n")), OWN));
    session.add(held("sent", text("TWP1\u0002"), SENT));
    const verify = askingFor("bank 9", report), judged = session.judge(verifier({ verify, strict: verify }), session.subjects[0]);
    assert.deepEqual([judged.unheld.map(({ service, step: at }) => `${service} ${at}`), headOf(judged).look], [["shop 2"], "partly"]);
});

test("a line of yours of a step that map files tell of, and don't open, isn't passed over", () => {
    const found = (lines, bound = "none") => {
        const session = new Session(), checkmap = () => `accepted map\nlow 1\nhigh ${bound}\nupto 9\n`;
        session.add(held("mine", text(lines.map((it) => `${it} ${X}`).join("\n")), OWN));
        for (const file of [low(1), high(1)]) session.add(file);
        const judged = session.judge(verifier({ checkmap }), session.subjects[0]);
        return [judged.unheld.map(({ service, step: at }) => `${service} ${at}`).join(), headOf(judged).look];
    };
    assert.deepEqual(found(["bank 2", "shop 2", "mill 1"]), ["", "yes"]);
    assert.deepEqual(found(["bank 1"]), ["bank 1", "partly"]);
    assert.deepEqual(found(["shop 1"]), ["shop 1", "partly"]);
    assert.deepEqual(found(["shop 2", "bank 7"], "7"), ["shop 2", "partly"]);
});

test("of a line of yours under which map files are accepted one of them may tell another one, as received: that isn't called shown", () => {
    const table = JSON.parse(readFileSync(new URL("../../vectors/map.json", import.meta.url))).vectors, bytesOf = (hex) => new Uint8Array(Buffer.from(hex, "hex"));
    const titles = table.filter(({ words, status }) => words[0] === "checkmap" && status === 0).map(({ files, text: told }) => {
        const session = new Session(), mine = bytesOf(files.anchors), lines = Buffer.from(mine).toString().trim().split("\n");
        const checkmap = (one, other, anchors) => {
            const missing = lines.find((line) => !`${anchors}`.includes(line));
            return missing ? `rejected 3 NotHeld ${missing.split(" ").slice(0, 2).join(" ")}\n` : told;
        };
        session.add(held("mine", mine, OWN));
        for (const side of ["low", "high"]) session.add(held(side, bytesOf(files[side]), SENT));
        return headOf(session.judge(verifier({ checkmap, verify: () => "accepted link\n" }), session.subjects[0])).title;
    });
    assert.deepEqual([...new Set(titles)].sort(), ["Not shown: a line of yours contradicts the file", "Shown"]);
});

test("an accepted file that tells another line of a step than another one's path passes contradicts it", () => {
    const proof = `TWP1\u0001${name("shop")}${step(1)}${step(2)}${"p".repeat(64)}`, found = (answer) => {
        const session = new Session(), verify = (file, anchors) => {
            if (file[4] === 5) return answer;
            if (file[4] === 3) return askingFor("bank 9", `accepted thread\nthread bank 9 shop 1 ${X} 3\n`)(file, anchors);
            return askingFor("shop 2", "accepted exists\nevent shop 1 0 61\n")(file, anchors);
        };
        session.add(held("mine", text([`bank 9 ${X}`, `shop 2 ${X}`].join("\n")), OWN));
        for (const [at, it] of [text("TWP1\u0003"), text(proof)].entries()) session.add(held(`sent ${at}`, it, SENT));
        const told = verifier({ verify, strict: verify }), judged = session.subjects.map((it) => session.judge(told, it));
        return [judged.map((it) => headOf(it).look).join(), session.conflicts(told, judged).map(({ first, second, two }) => `${first.name} ${second.name} ${two.one.step}`).join()];
    };
    assert.deepEqual(found("accepted link\n"), ["yes,yes", ""]);
    assert.deepEqual(found("rejected 4 BadPath 0\n"), ["yes,yes", "sent 0 sent 1 1"]);
});

test("a line of yours of a step that evidence opens is held against it by the path of its proof", () => {
    const front = `${name("shop")}${step(2)}${step(2)}`, proof = `TWP1\u0003${front}`, fork = `first x 1 ${X} shop 2\nsecond x 1 ${Y} bank 1\n`;
    const found = (answer, ...more) => {
        const session = new Session(), asked = [];
        const verify = (given, anchors) => {
            if (given[4] === 5) return asked.push(given.length), answer;
            if (given.length > 37) return "rejected 1 Malformed 37\n";
            return anchors.includes("bank 1") ? "accepted thread\n" : "rejected 3 NotHeld bank 1\n";
        };
        session.add(held("evidence", text(`TWV1${proof}${proof}`), SENT));
        session.add(held("mine", text([`bank 1 ${X}`, `shop 2 ${X}`, ...more].join("\n")), OWN));
        const judged = session.judge(verifier({ verify, checkfork: () => `accepted fork\n${fork}` }), session.subjects[0]);
        return [asked.length, headOf(judged).title];
    };
    assert.deepEqual(found("rejected 3 NotBound 0\n"), [2, "Not shown: a line of yours contradicts the file"]);
    assert.deepEqual(found("accepted link\n"), [2, "Shown"]);
    assert.deepEqual([X, Y].map((it) => found("accepted link\n", `x 1 ${it}`)), [[2, "Shown"], [2, "Shown"]]);
    assert.deepEqual(found("accepted link\n", `x 1 ${"c".repeat(64)}`), [2, "Shown in part: a line of yours isn't compared with it"]);
});

// ---- documents

const hexed = (given) => Buffer.from(given).toString("hex"), entry = (digest, path) => hexed(`${digest}  ./${path}`);

/** What is said first of a proof of these events, with these documents, each [name, digest]; and the session. */
function withDocuments(events, documents, kind = events.length > 1 ? "precedes" : "exists") {
    const session = new Session(), told = `accepted ${kind}\n${events.map((event, at) => `event shop ${at + 1} 0 ${event}`).join("\n")}\n`;
    session.add(held("mine", text(`shop 9 ${X}\n`), OWN));
    session.add(held("sent", text("TWP1\u0001"), SENT));
    for (const [name, digest, fault] of documents) session.add(Object.assign(held(name, text(name), DOCUMENT), { digest, fault }));
    const verify = askingFor("shop 9", told), judged = session.subjects.map((it) => session.judge(verifier({ verify, strict: verify }), it));
    return { head: headOf(judged[0]), stray: session.strayDocuments(judged), judged };
}

test("the headline follows the document: recorded, but not this file", () => {
    const title = (...given) => withDocuments(...given).head.title, sold = [entry(X, "sold")];
    assert.equal(title(sold, []), "Shown: no document compared");
    assert.equal(title([hexed("milk")], []), "Shown");
    assert.equal(title(sold, [["sold", X]]), "Shown");
    assert.equal(title(sold, [["renamed", X]]), "Shown");
    assert.equal(title(sold, [["sold", Y]]), "Not shown: recorded, but not this file");
    assert.equal(title([hexed("milk")], [["sold", X]]), "Not shown: recorded, but as no file");
    assert.equal(title(sold, [["sold", undefined, "gone"]]), "Not judged");
    assert.equal(title([entry(X, "sold"), entry(Y, "paid")], [["paid", Y]]), "Shown");
    assert.equal(title([entry(X, "sold"), entry(Y, "paid")], [["paid", "c".repeat(64)]]), "Not shown: recorded, but not this file");
    const { head } = withDocuments(sold, [["deed", Y]]);
    assert.equal(`${head.sentence}`, "“deed” is another file than the one that was recorded.");
    assert.equal(head.apart, `recorded: ${X}\nyours:    ${Y}`);
    assert.match(head.todo, /^Another version of a file/);
    assert.match(`${withDocuments(sold, [["sold", Y]]).head.sentence}`, /^“sold” is another file of the same name/);
});

test("that no document was given is told first of a proof that names a file, and of another one isn't", () => {
    const first = (...given) => withDocuments(...given).head.first;
    assert.equal(`${first([entry(X, "a/sold")], [])}`, "You gave no document: whether your “sold” is the file that was recorded isn't judged. Put it into the third field.");
    assert.match(`${first([entry(X, "sold"), entry(Y, "paid")], [])}`, /whether your “sold” or “paid” is/);
    assert.match(`${first([hexed(`${X}  -`)], [])}`, /whether your document is/);
    assert.deepEqual([first([entry(X, "sold")], [["sold", X]]), first([entry(X, "sold")], [["sold", Y]]), first([hexed("milk")], [])], [undefined, undefined, undefined]);
    const { judged } = withDocuments([entry(X, "sold")], []);
    assert.match(summaryWords(judged), /^Shown: no document compared: You gave no document/);
});

test("of two documents the one that was recorded is told, and the other one too", () => {
    const { head, stray } = withDocuments([entry(X, "sold")], [["other", Y], ["sold", X]]);
    assert.deepEqual([head.title, stray.map((it) => [it.document.name, strayWords(it).title])], ["Shown", [["other", "Not shown: recorded, but not this file"]]]);
});

test("lines as they are kept, and those of a mail, are told as lines in each wrong field, and a document that is another file isn't asked a proof for", () => {
    const kept = `shop 2 ${"a".repeat(64)} 2026-11-29T09:40:00Z by mail\n`, mail = `Dear Sir, our line is\nshop 2 ${"aaaa ".repeat(16)}\nYours\n`;
    assert.deepEqual([kept, mail].map((it) => held("a", text(it), SENT)).map((it) => [it.kind, it.belongs, it.lines.length, it.found.length]), [["lines", OWN, 1, 0], ["lines", OWN, 1, 0]]);
    const proof = Object.assign(held("a", text("TWP1\u0001"), DOCUMENT), { digest: X }), lines = Object.assign(held("b", text(kept), DOCUMENT), { digest: X });
    assert.deepEqual([proof.belongs, lines.belongs], [SENT, OWN]);
    for (const document of [proof, lines]) assert.match(strayWords({ document, isHeld: false }).todo, /belong into another field/);
});

test("a whole history isn't judged by a page, and is told with the command that judges it, wherever it was put", () => {
    for (const place of [SENT, OWN]) {
        const session = new Session();
        session.add(held("shop.history", text("TWH1"), place));
        const head = headOf(session.judge(verifier({}), session.subjects[0]));
        assert.deepEqual([session.subjects.length, head.look, head.title], [1, "open", "Not judged"]);
        assert.match(`${head.sentence}`, /^“shop.history” is a whole history, .* this page doesn't judge it: `weft judge HISTORY --kept LINES` does\.$/);
    }
});

test("a document without a proof is told so, and one that was put among what was sent isn't called rejected", () => {
    const session = new Session();
    session.add(Object.assign(held("deed", text("deed"), DOCUMENT), { digest: X }));
    assert.deepEqual(session.strayDocuments([]).map((it) => [strayWords(it).look, strayWords(it).title]), [["open", "Not judged"]]);
    const stray = (...judged) => session.strayDocuments(judged.map((it) => ({ call: "timeweave_verify", ...it }))).map((it) => `${strayWords(it).sentence} ${strayWords(it).todo}`)[0];
    assert.match(stray(), /no proof of an event is here\. Ask whoever sent it for its proof/);
    assert.match(stray({ missing: {} }, {}), /^“deed” isn't compared with anything yet: the proof above isn't judged\. Do first what is told there/);
    assert.match(stray({}), /no proof of an event above is accepted/);
    session.add(held("deed.pdf", text("%PDF-1.7"), SENT));
    const judged = session.judge(verifier({}), session.subjects[0]), head = headOf(judged);
    assert.deepEqual([head.look, head.title], ["open", "Not judged"]);
    assert.match(`${head.sentence} ${head.todo}`, /“deed.pdf” is no file of Timeweave.*Is it the document itself\? Then its proof is missing/);
});

test("a line of yours that was typed wrong is told first, and a right one beside a wrong one never is", () => {
    const right = `${"a".repeat(63)}b`, under = (wanted) => {
        const session = new Session();
        session.add(held("mine", text(`bank 9 ${X}\nshop 4 ${X}\n`), OWN));
        session.add(held("sent", text("TWP1\u0002"), SENT));
        const verify = (file, anchors) => {
            const missing = ["bank 9", "shop 4"].find((it) => !anchors.includes(it));
            if (missing) return `rejected 3 NotHeld ${missing}\n`;
            return !anchors.includes(`bank 9 ${wanted.bank}`) ? "rejected 4 BadPath 0\n" : !anchors.includes(`shop 4 ${wanted.shop}`) ? "rejected 4 BadPath 1\n" : "rejected 6 BadEvent 0\n";
        };
        return headOf(session.judge(verifier({ verify, strict: verify }), session.subjects[0]));
    };
    const typed = under({ bank: X, shop: right });
    assert.equal(typed.title, "Not shown: typed rightly?");
    assert.match(typed.sentence, /^Typed rightly\? With b in the place of a at digit 4 of group 16 the line of step 4 of shop that you hold/);
    assert.match(under({ bank: right, shop: X }).sentence, /at digit 4 of group 16 the line of step 9 of bank/);
    assert.equal(under({ bank: X, shop: Y }).title, "Not shown");
    assert.equal(under({ bank: Y, shop: Y }).title, "Not shown");
});

test("a line that stands amid other words doesn't count", () => {
    const file = held("a", text(`It is false:\n shop 2 ${X.match(/.{4}/g).join(" ")}\n`), OWN);
    assert.deepEqual([file.kind, file.lines, file.found.map(({ service }) => service), file.belongs], ["lines", [], ["shop"], undefined]);
    const behind = (words) => held("a", text(`# shop 2 ${X} ${words}\nbank 3 ${X} 2026-11-29T09:40:00Z by letter\n`), OWN).lines.map(({ service }) => service);
    assert.deepEqual([behind("by letter"), behind("2026-11-29T09:40:00Z by letter")], [[], ["bank"]]);
});
