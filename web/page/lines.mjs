/** Lines, NAME STEP AUTHENTICATOR: reading them, those that contradict each other, and the choice of those that a proof asks for. */

import { isTakenOut, readTyped } from "./letters.mjs";

const LAST_STEP = 2 ** 40 - 1;
/** A longer text isn't read as one that somebody typed. */
const MOST_TYPED = 1 << 20;
const LINE = /^([a-z0-9-]{1,16}) (0|[1-9][0-9]{0,12}) ([0-9a-f]{64})$/i;
/** What weft writes into a file of kept lines: a line with the day and how it came, and the lines of a step that were seen to contradict each other. */
const KEPT = /^([a-z0-9-]{1,16} [0-9]{1,13} [0-9a-fA-F]{64}) ([0-9]{4}-[0-9]{2}-[0-9]{2})T[0-9]{2}:[0-9]{2}:[0-9]{2}Z(?: (.*))?$/;
const MARK = /^(?:contradiction|chosen): ([a-z0-9-]{1,16} [0-9]{1,13})((?: [0-9a-fA-F]{64}){2,})(?: .*)?$/;
/** How a line came that counts by a key alone, of which a page knows nothing. */
const BY_KEY = "signed by ";

/** The text of a file's bytes: UTF-16 where it begins with its mark, as Windows writes it, else UTF-8. */
function textOf(bytes) {
    const isWide = (bytes[0] === 0xff && bytes[1] === 0xfe) || (bytes[0] === 0xfe && bytes[1] === 0xff);
    return new TextDecoder(isWide ? (bytes[0] === 0xff ? "utf-16le" : "utf-16be") : "utf-8").decode(bytes);
}

/** The line that words tell: {service, step, authenticator}, or {why} it is none. */
function readLine(text) {
    const words = LINE.exec(text);
    if (!words || words[1] !== words[1].toLowerCase()) return { why: "it isn't a name, a step and 64 hexadecimal digits, with one blank between" };
    const step = Number(words[2]);
    if (step === 0) return { why: "the line of step 0 is made of the name alone, so it binds nothing" };
    if (step > LAST_STEP) return { why: `a step is at most ${LAST_STEP}` };
    return { service: words[1], step, authenticator: words[3].toLowerCase() };
}

/** The lines that one line of a file tells: its own, a kept one with its `day` and `how` it came, or each that a mark of weft's names; or the one that it is none. */
function readLinesOf(text) {
    const mark = MARK.exec(text), kept = KEPT.exec(text);
    if (mark) return mark[2].trim().split(" ").map((authenticator) => readLine(`${mark[1]} ${authenticator}`));
    return [kept ? { ...readLine(kept[1]), day: kept[2], how: kept[3] ?? "" } : readLine(text)];
}

/**
 * The lines of a file's bytes, or of a typed text: `lines` of {service, step, authenticator, number}, the number being that of the line in
 * the file, from 1, and `bad` of {number, text, why}. Empty lines, and blanks around a line, are passed over. Lines are taken too as weft keeps them, of which those that came
 * by a key alone are `found`. A text that has anything else, but lines that were taken out by #, is read as one that somebody typed, in groups: then `bad` has what was typed
 * wrong, as {number, typed}; and where other words stand beside them, which may say anything of the lines, these don't count, and are `found` alone, as those of a text are
 * that is too long to be typed.
 */
export function readLines(given) {
    const lines = [], bad = [], signed = [], whole = typeof given === "string" ? given : textOf(given);
    for (const [at, text] of whole.split(/\r\n|\n|\r/).entries()) {
        const trimmed = text.trim();
        for (const line of trimmed ? readLinesOf(trimmed) : []) {
            if (line.why) bad.push({ number: at + 1, text: trimmed, why: line.why });
            else (line.how?.startsWith(BY_KEY) ? signed : lines).push({ ...line, number: at + 1 });
        }
    }
    if (bad.every(({ text }) => isTakenOut(text))) return { lines, bad, found: signed };
    if (whole.length > MOST_TYPED) return { lines: [], bad, found: [...lines, ...signed] };
    const read = readTyped(whole);
    return read.typed.some(({ fault }) => fault !== "digits alone") ? ofTyped(read) : { lines: [], bad, found: [...lines, ...signed] };
}

/** The lines of those that somebody typed, and what was typed wrong. */
function ofTyped({ typed, others }) {
    const read = typed.map((it) => (it.fault ? { number: it.number, typed: it } : { ...readLine(`${it.service} ${it.step} ${it.digits}`), number: it.number }));
    const good = read.filter(({ service }) => service), bad = read.filter(({ service }) => !service);
    return others.length ? { lines: [], bad, found: good } : { lines: good, bad, found: [] };
}

const keyOf = ({ service, step }) => `${service} ${step}`;

/** The lines by "NAME STEP": for each the first line of each authenticator, by that. */
function groups(lines) {
    const found = new Map();
    for (const line of lines) {
        const group = found.get(keyOf(line)) ?? new Map();
        found.set(keyOf(line), group);
        if (!group.has(line.authenticator)) group.set(line.authenticator, line);
    }
    return found;
}

/** The services and steps of which there are lines with different authenticators: each {service, step, lines}, one line of each authenticator. */
export function contradictions(lines) {
    return [...groups(lines).values()].filter((group) => group.size > 1).map((group) => {
        const each = [...group.values()];
        return { service: each[0].service, step: each[0].step, lines: each };
    });
}

/** The sender's lines of which you hold another one of that service and step: each {service, step, lines}, yours and then the sender's. */
export function contradicted(own, sent) {
    const mine = groups(own);
    const others = sent.filter((line) => mine.has(keyOf(line)) && !mine.get(keyOf(line)).has(line.authenticator));
    return others.map((line) => ({ service: line.service, step: line.step, lines: [[...mine.get(keyOf(line)).values()][0], line] }));
}

/** The lines of yours that count beside what files tell: of a step of which you chose one that one alone, of every other step all. */
export function linesThatCount(own, chosen) {
    const mine = groups(own);
    const wanted = (line) => (mine.get(keyOf(line)).has(chosen.get(keyOf(line))) ? chosen.get(keyOf(line)) : line.authenticator);
    return own.filter((line) => line.authenticator === wanted(line));
}

/** What a line that a file tells is to the lines that count: where one of its step differs `another one`, else where there is one `the same`, or `none`. */
export function heldAs(told, counting) {
    const held = counting.filter((line) => keyOf(line) === keyOf(told));
    if (!held.length) return "none";
    return held.some(({ authenticator }) => authenticator !== told.authenticator) ? "another one" : "the same";
}

/**
 * Of one step there is one line: of `told`, lists of a place and a line, the places that tell another one than the first that told one of that step, each
 * pair once: {first, second, one, other}.
 */
export function twoLines(told) {
    const firsts = new Map(), found = new Map();
    for (const [place, line] of told) {
        if (!firsts.has(keyOf(line))) firsts.set(keyOf(line), { place, line });
        const { place: first, line: one } = firsts.get(keyOf(line)), pair = `${first} ${place}`;
        if (one.authenticator !== line.authenticator && !found.has(pair)) found.set(pair, { first, second: place, one, other: line });
    }
    return [...found.values()];
}

/** The anchors file of these lines. */
export const anchorsText = (lines) => lines.map(({ service, step, authenticator }) => `${service} ${step} ${authenticator}\n`).join("");

/** The service and the step that the verifier asks for by its text, or null. */
export function askedFor(text) {
    const words = /^rejected 3 NotHeld (\S+) (\d+)\n$/.exec(text);
    return words && { service: words[1], step: Number(words[2]) };
}

/**
 * Judges a proof under those of the lines that it asks for, which the verifier tells one after another. `judge` gives {status, text} for an
 * anchors file; `pick` gives the line to hold for a service and a step, or what it lacks. Answers {answer, anchors}, and with them `missing`,
 * {service, step} and what `pick` said, where a line that is asked for can't be held, as one of another step of its service is.
 */
export function chooseLines(judge, pick) {
    const anchors = [];
    for (;;) {
        const answer = judge(anchorsText(anchors)), asked = askedFor(answer.text);
        if (!asked) return { answer, anchors };
        const other = anchors.find(({ service }) => service === asked.service);
        const { line, lacks } = other ? { line: undefined, lacks: { other: other.step } } : pick(asked);
        if (!line) {
            const others = other ? [] : furtherMissing(judge, pick, anchors, asked);
            return { answer, anchors, missing: { ...asked, ...lacks, ...(others.length ? { others } : {}) } };
        }
        anchors.push(line);
    }
}

/** The further lines that a proof asks for and that can't be held, each {service, step} with what `pick` said, behind a first one: the verifier asks for one only once those before are there. */
function furtherMissing(judge, pick, anchors, first) {
    const standIn = (asked) => ({ ...asked, authenticator: "0".repeat(64) }), held = [...anchors, standIn(first)], found = [];
    for (;;) {
        const asked = askedFor(judge(anchorsText(held)).text);
        if (!asked || held.some(({ service }) => service === asked.service)) return found;
        const { line, lacks } = pick(asked);
        if (!line) found.push({ ...asked, ...lacks });
        held.push(line ?? standIn(asked));
    }
}

/**
 * How a line is picked of those that count: your own, where they don't contradict each other or you chose one, and those of the sender that
 * you made count. `own` and `sent` are lists of lines, `counted` the sender's lines that count, and `chosen` the authenticators that you chose,
 * by "NAME STEP". What is lacking is told as `two` different lines of yours, or as the sender's `offered` lines.
 */
export function pickBy({ own, sent, counted, chosen }) {
    const yours = groups(own), theirs = groups(sent);
    return (asked) => {
        const mine = yours.get(keyOf(asked)), wanted = chosen.get(keyOf(asked));
        if (mine?.size > 1 && !mine.has(wanted)) return { lacks: { two: [...mine.values()] } };
        if (mine) return { line: mine.get(wanted) ?? [...mine.values()][0] };
        const offered = [...(theirs.get(keyOf(asked)) ?? new Map()).values()];
        const line = offered.find((it) => counted.has(`${keyOf(it)} ${it.authenticator}`));
        return line ? { line } : { lacks: { offered } };
    };
}
