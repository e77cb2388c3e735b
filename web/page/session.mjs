/** The files and lines that are held, what the user chose, and what the verifier says of each proof. */

import { ACCEPTED, MOST_BYTES, REJECTED, readBounds, readContradiction, readFork, readReport } from "../timeweave.mjs";
import { MOST_BUNDLE, meetLines, openBundle } from "./bundles.mjs";
import { matchFile, readRecorded, wholeDigest } from "./documents.mjs";
import { isLink, kindOf, mapOf } from "./files.mjs";
import { findSlip } from "./letters.mjs";
import { anchorsText, askedFor, chooseLines, contradicted, contradictions, heldAs, linesThatCount, pickBy, readLines, twoLines } from "./lines.mjs";
import { linkTo, shownBy } from "./opened.mjs";
import { toldLines } from "./words.mjs";

/** Where a file was put: among what was sent, or among the lines got another way. */
export const SENT = "sent";
export const OWN = "own";
/** Where the document itself was put. */
export const DOCUMENT = "document";
const LINE_END = 10;

/** What was read of a file: {name, size, blob, bytes, place}, its kind, its lines, and what the page says of it beside that. */
export function readFile({ name, size, blob, bytes, place, source = undefined }) {
    const known = kindOf(bytes), isCut = size > bytes.length, file = { name, size, blob, bytes, place, source, lines: [], bad: [], notes: [] };
    if (place === DOCUMENT) return Object.assign(file, { kind: "document", ...strangeDocument(known, bytes, isCut) });
    if (known) {
        if (place === OWN) file.notes.push("This is no file of lines, so it was put among what you were sent.");
        if (known.says) file.notes.push(known.says);
        return Object.assign(file, { kind: known.kind, place: SENT, ...(known.kind === "bundle" ? openFile(file) : {}) });
    }
    const read = readLines(isCut ? bytes.subarray(0, bytes.lastIndexOf(LINE_END) + 1) : bytes), { bad } = read;
    const { lines, found } = place === SENT ? { lines: [...read.lines, ...read.found], found: [] } : read;
    if (isCut && place === OWN) file.notes.push(`It is longer than any file of lines: only its first ${MOST_BYTES.toLocaleString("en")} bytes were read.`);
    const isTyped = found.length > 0 || bad.some(({ typed }) => typed);
    if (place === SENT && !lines.length && !isTyped) return Object.assign(file, { kind: "unknown", belongs: DOCUMENT });
    const from = { name: source ?? name, isSender: place === SENT };
    if (!lines.length && !isTyped) file.notes.push(size ? "There is no line in it: name, step and 64 hexadecimal digits." : "The file is empty.");
    const belongs = place === SENT ? OWN : lines.length || isTyped || !size ? undefined : DOCUMENT, withFrom = (line) => ({ ...line, from });
    return Object.assign(file, { kind: "lines", bad, lines: lines.map(withFrom), found: found.map(withFrom), belongs });
}

/** What a bundle has: its proof, of map files both, as files, its records as documents, and its lines, which are the sender's. What can't be opened may be the document. */
function openFile({ name, size, bytes }) {
    const opened = openBundle(bytes, size), from = { name, isSender: true }, by = "this page's script";
    if (opened.fault) return { opened, belongs: DOCUMENT };
    const proofs = opened.proofs.map((it) => ({ name, size: it.length, bytes: it.subarray(0, MOST_BYTES), kind: kindOf(it)?.kind, place: SENT }));
    const records = opened.records.map((it) => ({ ...it, size: it.bytes.length, place: DOCUMENT, digest: wholeDigest(it.bytes), by }));
    return { opened: { ...opened, proofs, records }, lines: opened.lines.map((line) => ({ ...line, from })) };
}

/** What is told of a document that would be something else in another field, and which one that is. */
function strangeDocument(known, bytes, isCut) {
    if (known?.kind === "bundle" && (isCut || openBundle(bytes, bytes.length).fault)) return {};
    if (known) return { belongs: SENT, notes: ["It is a file of Timeweave itself. Is it a proof that you were sent?"] };
    const { lines, bad } = isCut ? { lines: [], bad: [] } : readLines(bytes);
    return lines.length && !bad.length ? { belongs: OWN, notes: ["It is a file of lines. Did you get them another way?"] } : {};
}

/** Reads the front of a file: no proof and no good file of lines is longer than that. A bundle is read whole, as far as one may be long. */
export async function takeFile(blob, name, place) {
    const bytesUpTo = async (most) => new Uint8Array(await blob.slice(0, most).arrayBuffer()), front = await bytesUpTo(MOST_BYTES);
    const isWhole = place !== DOCUMENT && blob.size > MOST_BYTES && blob.size <= MOST_BUNDLE && kindOf(front)?.kind === "bundle";
    return readFile({ name, size: blob.size, blob, bytes: isWhole ? await bytesUpTo(MOST_BUNDLE) : front, place });
}

/** What a document is to the events of an accepted report: as matchFile says, or `unread` where its digest isn't known. */
export function documentBeside({ events }, { name, digest, fault }) {
    return fault ? { match: "unread", places: [] } : matchFile(events.map(({ data }) => readRecorded(data)), digest, name, events.map(({ data }) => wholeDigest(data)));
}

export const isThatFile = ({ match }) => match === "same" || match === "renamed";

/** What the documents are to a judgement of a proof of events, each {document, match, places}; of another one none. */
export function besideDocuments({ report, documents = [] }) {
    return report?.events.length ? documents.map((document) => ({ document, ...documentBeside(report, document) })) : [];
}

/** What the records of a bundle are to a judgement of a proof of events, the same. */
export const besideRecords = ({ report, bundle }) => besideDocuments({ report, documents: bundle?.opened.records });

/** Those of them whose file was recorded; none where it isn't any of them. */
export const filesRecorded = (judged) => besideDocuments(judged).filter(isThatFile);

const isSame = (a, b) => a.place === b.place && a.name === b.name && a.size === b.size && a.bytes.every((byte, at) => byte === b.bytes[at]);

/** The most files that are held against each other, each with each. */
const MOST_COMPARED = 60;

/** The report of a map or of evidence has the lists of one of a proof too, empty. */
const reportWith = (kind, shown) => ({ kind, events: [], hops: [], carried: [], ...shown });

/** What is judged by each function of the verifier, and how its accepted text is read. */
const READ = {
    timeweave_verify: (text) => readReport(text),
    timeweave_checkmap: (text, [low]) => reportWith("map", { map: { ...mapOf(low.bytes), ...readBounds(text) } }),
    timeweave_checkfork: (text) => reportWith("fork", { fork: readFork(text) }),
};

/** What the verifier says of bytes that are no proof: from where on none goes on. */
const MALFORMED = /^rejected 1 Malformed (\d+)\n$/;

/** The proofs in evidence of a fork: each ends where the verifier says that no proof goes on. */
function proofsIn(timeweave, evidence) {
    const found = [];
    for (let rest = evidence.subarray(4); found.length < 2; rest = rest.subarray(found.at(-1).length)) {
        const end = MALFORMED.exec(timeweave.judge(rest, "").text);
        found.push(rest.subarray(0, end ? Number(end[1]) : rest.length));
    }
    return found;
}

/** The functions of the verifier that judge what a bundle has. */
const CALL_OF = { proof: "timeweave_verify", evidence: "timeweave_checkfork", map: "timeweave_checkmap" };

/** What is judged of a bundle: its proof, of map files both; of one that can't be opened nothing. */
function subjectOf(file) {
    const { fault, proofs } = file.opened, kind = proofs?.[0].kind, call = CALL_OF[kind];
    if (fault) return { isUnopened: true, files: [file] };
    const how = call ? { call, isAlone: kind === "map" && proofs.length === 1 } : kind === "history" ? { isHistory: true } : { isUnknown: true };
    return { ...how, bundle: file, files: proofs };
}

/**
 * The answer for evidence, or that for one of its proofs where it asks for a line: of evidence the verifier doesn't say which line it lacks. Where one of them is no
 * proof, no line would help.
 */
function judgeEvidence(timeweave, evidence) {
    const proofs = proofsIn(timeweave, evidence);
    return (anchors) => {
        const told = proofs.map((proof) => timeweave.judge(proof, anchors));
        const asked = told.some(({ text }) => MALFORMED.test(text)) ? undefined : told.find(({ text }) => askedFor(text));
        return asked ?? timeweave.ask("timeweave_checkfork", evidence, anchors);
    };
}

/** The lines of yours that a proof carries, and its report without these: each of them binds its hop as any other line does. */
function withHeld(report, own) {
    const isYours = (thread) => heldAs(thread, own) === "the same";
    const held = report.carried.filter(isYours).map((thread) => own.find((line) => areOfOneStep(line, thread)));
    return { held, report: held.length ? { ...report, carried: report.carried.filter((thread) => !isYours(thread)) } : report };
}

/** The kinds of reports on what a service received. */
const ON_RECEIVING = ["thread", "absent", "map"];

/** The report of evidence both of whose lines one service received, with the rule that this broke by it, as the verifier says; another one as it is. */
function withReceiver(timeweave, report, evidence, anchors) {
    if (!report.fork || report.fork.first.by !== report.fork.second.by || !timeweave.has("timeweave_receiver")) return report;
    const { status, text } = timeweave.ask("timeweave_receiver", evidence, anchors, new Uint8Array());
    return status === ACCEPTED ? { ...report, broken: readContradiction(text) } : report;
}

const areOfOneStep = (one, other) => one.service === other.service && one.step === other.step;

/**
 * What accepted files show besides what their report tells, of evidence each of its proofs: {told, passed}. Of whom evidence accuses its trees tell one history of
 * two, which says nothing.
 */
function shownIn(timeweave, call, files, report) {
    const shown = (call === "timeweave_checkfork" ? proofsIn(timeweave, files[0].bytes) : files.map(({ bytes }) => bytes)).map(shownBy);
    const accused = report.fork?.first.thread.service;
    return { told: shown.flatMap(({ told }) => told).filter(({ service }) => service !== accused), passed: shown.flatMap(({ passed }) => passed) };
}

/** Whether a line is of a step that a map may show as received: that of the peer at its lower bound; its own, and at an upper bound each later one. */
function isOfMap({ service, step, peer, low, high }, line) {
    return line.service === peer ? line.step === low : line.service === service && (line.step === step || (high !== undefined && line.step > step));
}

/** Whether a line is a third one of the step of which evidence shows two: neither thread, as the page sees them. */
const isThird = ({ first, second }, line) => areOfOneStep(first.thread, line) && ![first, second].some(({ thread }) => thread.authenticator === line.authenticator);

/** The line of yours under which what a file shows of this line's service by its paths is so; none of a service of which something is carried. */
export function lineUnder({ carried }, anchors, { service }) {
    return carried.some((it) => it.service === service) ? undefined : anchors.find((it) => it.service === service && !it.from.isSender);
}

/**
 * The lines of yours of a step of which the report tells no authenticator: `others`, which aren't those that the files have, or of which the verifier says that
 * they aren't of the history of a step that is passed, each with the one of yours under which that is so, where there is one; and `unheld`, of which that isn't known. Of a
 * line under which a file is accepted another one may be told all the same, by a tree of another service.
 */
function linesBeside(timeweave, report, { told, passed }, { own, anchors }) {
    const known = toldLines(report), isAnchor = (line) => anchors.some((it) => areOfOneStep(it, line)), shown = [...told, ...passed, ...report.events, ...report.hops];
    const isTold = (line) => (report.map !== undefined && isOfMap(report.map, line)) || (report.fork !== undefined && isThird(report.fork, line));
    const isShown = (line) => isTold(line) || shown.some((it) => areOfOneStep(it, line));
    const beside = own.filter((line) => isShown(line) && !known.some((it) => areOfOneStep(it, line)));
    const textOf = ({ under }) => anchorsText(under ? [under] : anchors);
    const answersTo = (line) => [
        ...told.filter((it) => areOfOneStep(it, line)).map(({ authenticator, isReceived }) => ({ status: authenticator === line.authenticator ? ACCEPTED : REJECTED, isReceived })),
        ...passed.filter((it) => areOfOneStep(it, line) && !isAnchor(line)).map((it) => ({ status: timeweave.judge(linkTo(it, line), textOf(it)).status })),
    ];
    const answers = beside.map(answersTo), isOther = (_, at) => answers[at].some(({ status }) => status === REJECTED);
    const isHeld = (_, at) => answers[at].length > 0 && answers[at].every(({ status }) => status === ACCEPTED);
    const isOfPath = (at) => answers[at].some(({ status, isReceived }) => status === REJECTED && !isReceived);
    const others = beside.map((line, at) => ({ ...line, ...(isOfPath(at) ? { under: lineUnder(report, anchors, line) } : {}) }));
    return { others: others.filter(isOther), unheld: beside.filter((line, at) => !isOther(line, at) && !isHeld(line, at) && !isAnchor(line)) };
}

/** How a digest may have been meant that was typed wrong: with another digit at one place, or with two neighbours the other way round. */
function* meantDigests(digest) {
    for (let at = 0; at < digest.length; at++) {
        for (const digit of "0123456789abcdef") if (digit !== digest[at]) yield digest.slice(0, at) + digit + digest.slice(at + 1);
        if (at + 1 < digest.length && digest[at] !== digest[at + 1]) yield digest.slice(0, at) + digest[at + 1] + digest[at] + digest.slice(at + 2);
    }
}

/** Whether an answer is an acceptance, or tells a reason that comes behind a path of this part: so that path is right. */
function isBetter(text, part) {
    const [, number, name, place] = /^rejected (\d+) (\w+) ?(\d*)/.exec(text) ?? [];
    return text.startsWith("accepted ") || (name === "BadPath" ? Number(place) > part : Number(number) > 4);
}

/**
 * The line of yours under which a proof isn't accepted, and that would be the one that it needs were one digit of it another: {slip: {line, slip}}; else nothing. Nobody
 * can make a proof for which that is so of a line that was typed rightly.
 */
function slipIn(ask, { answer, anchors }) {
    const part = / BadPath (\d+)\n$/.exec(answer.text)?.[1];
    for (const line of part === undefined ? [] : anchors.filter(({ from }) => !from.isSender)) {
        for (const authenticator of meantDigests(line.authenticator)) {
            const { text } = ask(anchorsText(anchors.map((it) => (it === line ? { ...line, authenticator } : it))));
            if (isBetter(text, Number(part))) return { slip: { line, slip: findSlip(line.authenticator, authenticator) } };
        }
    }
    return {};
}

/**
 * Of lines that accepted files tell, each with the place of its file, those that the verifier says aren't of the history of a step that another file's path passes, as
 * `twoLines` has them: of that step the other file tells no authenticator.
 */
function twoHistories(timeweave, accepted, told) {
    const found = new Map();
    for (const [first, one] of told) {
        for (const [second, { shown, anchors }] of accepted.entries()) {
            const pair = [first, second].sort((a, b) => a - b).join(" ");
            if (first === second || found.has(pair)) continue;
            const passed = (shown?.passed ?? []).filter((it) => areOfOneStep(it, one));
            const isOther = passed.some((it) => timeweave.judge(linkTo(it, one), anchorsText(it.under ? [it.under] : anchors)).status === REJECTED);
            if (isOther) found.set(pair, { first, second, one, other: { ...one, authenticator: "another one" } });
        }
    }
    return [...found.values()];
}

/** What is held at one time. An example is one of its own, so that its files never mix with a user's. */
export class Session {
    /** What an example is called. */
    title = "";
    files = [];
    /** The sender's lines that count, as "NAME STEP AUTHENTICATOR". */
    counted = new Set();
    /** Of lines of yours that contradict each other, the authenticator that was chosen, by "NAME STEP". */
    chosen = new Map();

    /** Adds a file; answers false where it is there already. */
    add(file) {
        if (this.files.some((held) => isSame(held, file))) return false;
        this.files.push(file);
        return true;
    }

    remove(file) {
        this.files = this.files.filter((held) => held !== file);
        if (!this.files.length) this.forget();
    }

    /** Takes back what was chosen. */
    forget() {
        this.counted.clear();
        this.chosen.clear();
    }

    linesAt = (place) => this.files.filter((file) => file.place === place).flatMap((file) => file.lines);

    ofKind = (kind) => this.files.filter((file) => file.kind === kind);

    /** The proofs that were sent, in bundles too. */
    get proofs() {
        return [...this.ofKind("proof"), ...this.ofKind("bundle").flatMap(({ opened }) => opened.proofs ?? []).filter(({ kind }) => kind === "proof")];
    }

    /** What is judged: {call, files}, of proofs, of evidence, of each low and high map file that belong together, one without another alone, and of bundles. And what no function judges. */
    get subjects() {
        const maps = this.ofKind("map").map((file) => ({ file, of: mapOf(file.bytes) })), pairs = [];
        const isOther = (a, b) => !b.of.isLow && a.of.service === b.of.service && a.of.step === b.of.step && a.of.peer === b.of.peer;
        for (const low of maps.filter(({ of }) => of.isLow)) for (const high of maps.filter((it) => isOther(low, it))) pairs.push([low.file, high.file]);
        const alone = maps.map(({ file }) => file).filter((file) => !pairs.some((pair) => pair.includes(file)));
        return [
            ...this.ofKind("proof").map((file) => ({ call: "timeweave_verify", files: [file] })),
            ...pairs.map((files) => ({ call: "timeweave_checkmap", files })),
            ...alone.map((file) => ({ call: "timeweave_checkmap", files: [file], isAlone: true })),
            ...this.ofKind("evidence").map((file) => ({ call: "timeweave_checkfork", files: [file] })),
            ...this.ofKind("bundle").map(subjectOf),
            ...this.ofKind("history").map((file) => ({ isHistory: true, files: [file] })),
            ...this.ofKind("unknown").map((file) => ({ isUnknown: true, files: [file] })),
        ];
    }

    /** The lines of yours that contradict each other, and then those of the sender's that contradict yours. */
    get contradictions() {
        const own = this.linesAt(OWN);
        return { own: contradictions(own), sent: contradicted(own, this.linesAt(SENT)) };
    }

    /**
     * What the verifier says of a subject: {answer, anchors}, `report` where it is accepted and `strict` of a proof, `missing` where a line is,
     * `lacks` where the module has no such function, or the `fault` of a trap. Where a file contradicts itself, `refuted` in the place of a report. Of a bundle what `met` its lines.
     */
    judge(timeweave, subject) {
        const { call, files } = subject, own = this.linesAt(OWN), judged = { ...subject, file: files[0], own: linesThatCount(own, this.chosen), anchors: [], documents: this.ofKind("document") };
        if (subject.bundle) judged.met = meetLines(subject.bundle.lines, judged.own);
        if (subject.isUnopened || subject.isUnknown || subject.isHistory) return judged;
        if (!timeweave.has(call)) return { ...judged, lacks: true };
        if (subject.isAlone) return judged;
        const pick = pickBy({ own, sent: this.linesAt(SENT), counted: this.counted, chosen: this.chosen }), bytes = files.map((file) => file.bytes);
        try {
            const ask = call === "timeweave_checkfork" ? judgeEvidence(timeweave, bytes[0]) : (anchors) => timeweave.ask(call, ...bytes, anchors);
            const found = chooseLines(ask, pick), text = anchorsText(found.anchors);
            if (found.missing) found.answer = timeweave.ask(call, ...bytes, text);
            if (found.answer.status !== ACCEPTED) return { ...judged, ...found, ...slipIn(ask, found) };
            const strict = call === "timeweave_verify" ? { strict: timeweave.ask("timeweave_strict", ...bytes, text) } : {};
            const report = READ[call](found.answer.text, files), refuted = this.refuted(timeweave, report, files, found.anchors);
            if (refuted) return { ...judged, ...found, ...strict, refuted };
            const { held, ...bound } = withHeld(report, judged.own);
            const shown = shownIn(timeweave, call, files, report), beside = linesBeside(timeweave, report, shown, { ...judged, ...found });
            return { ...judged, ...found, ...strict, ...beside, shown, held, report: withReceiver(timeweave, bound.report, bytes[0], text) };
        } catch (fault) {
            return { ...judged, fault };
        }
    }

    /**
     * Accepted files that contradict each other: that tell two lines of one step, {first, second, two}, and those of which the verifier says so. What a service
     * that broke a rule received shows nothing of others.
     */
    conflicts(timeweave, judgements) {
        const accepted = judgements.filter(({ report }) => report), brokenRules = this.brokenRules(timeweave, judgements);
        const broken = new Set([...brokenRules.map(({ told }) => told.service), ...judgements.filter(({ refuted }) => refuted).map(({ refuted }) => refuted.service)]);
        const counts = ({ received }, line) => !received || !broken.has(received.service) || line.service === received.service;
        const mayTell = ({ kind }) => !broken.size || !ON_RECEIVING.includes(kind);
        const told = accepted.flatMap(({ report, anchors, held = [], shown }, place) =>
            [...anchors, ...held, ...toldLines(report).filter((line) => counts(report, line)), ...(shown && mayTell(report) ? shown.told : [])].map((line) => [place, line]));
        const found = [...twoLines(told), ...twoHistories(timeweave, accepted, told)];
        return [...found.map((two) => ({ first: accepted[two.first].file, second: accepted[two.second].file, two, anchors: [] })), ...brokenRules];
    }

    /** What the verifier says that an accepted file on what a service received contradicts itself; else nothing. */
    refuted(timeweave, report, files, anchors) {
        if (!ON_RECEIVING.includes(report.kind) || !timeweave.has("timeweave_contradict")) return null;
        return files.map((file) => this.contradiction(timeweave, { file, anchors }, { file, anchors }, [])).find((told) => told);
    }

    /** The accepted files on what a service received, each with its anchors. */
    onReceiving = (judgements) => judgements.filter(({ report }) => report && ON_RECEIVING.includes(report.kind))
        .flatMap(({ files, anchors }) => files.map((file) => ({ file, anchors })));

    /**
     * The documents of which no judgement tells: {document, proofs}, what became of the proofs that are there: one of an event is `accepted`, and of another document; or
     * one is `unjudged`, or all were `refused`; nothing where none is there.
     */
    strayDocuments(judgements) {
        const onEvents = judgements.filter(({ report }) => report?.events.length), isTold = onEvents.some((judged) => !filesRecorded(judged).length);
        const isFound = (document) => onEvents.some((judged) => filesRecorded(judged).some((it) => it.document === document));
        const others = judgements.filter(({ call, report }) => call === "timeweave_verify" && !report), isUnjudged = others.some(({ missing, fault, lacks }) => missing || fault || lacks);
        const proofs = onEvents.length ? "accepted" : isUnjudged ? "unjudged" : others.length ? "refused" : undefined;
        return isTold ? [] : this.ofKind("document").filter((it) => !isFound(it)).map((document) => ({ document, proofs }));
    }

    /** How many of these aren't held against the others, since they are too many. */
    uncompared = (judgements) => Math.max(0, this.onReceiving(judgements).length - MOST_COMPARED);

    /** Accepted files that contradict each other on what a service received, as the verifier says of each two: {first, second, told, anchors}. */
    brokenRules(timeweave, judgements) {
        if (!timeweave.has("timeweave_contradict")) return [];
        const found = [], each = this.onReceiving(judgements).slice(0, MOST_COMPARED);
        const links = this.proofs.map(({ bytes }) => bytes).filter(isLink);
        for (const [at, first] of each.entries()) {
            for (const second of each.slice(at + 1)) {
                const told = this.contradiction(timeweave, first, second, links);
                if (told) found.push({ first: first.file, second: second.file, told, anchors: [...new Set([...first.anchors, ...second.anchors])] });
            }
        }
        return found;
    }

    /** What the verifier says that two files contradict each other, with a link that joins their lines where there is one; else null. */
    contradiction(timeweave, first, second, links) {
        const given = [first.file.bytes, anchorsText(first.anchors), second.file.bytes, anchorsText(second.anchors)];
        let found = null;
        for (const link of [new Uint8Array(), ...links]) {
            const { status, text } = timeweave.ask("timeweave_contradict", ...given, link);
            if (status === ACCEPTED) found = readContradiction(text);
            if (!found || found.isJoined) break;
        }
        return found;
    }
}
