/** What the page says: sentences, made of the proved text and of the lines that count alone. Those on answers are weft's own, of one source. */

import { MOST_NUMBER } from "./bundles.mjs";
import { isNamed, readRecorded } from "./documents.mjs";
import { findSlip } from "./letters.mjs";
import { heldAs } from "./lines.mjs";
import { HEADLINES, REASONS, RULES, SENTENCES } from "./sentences.mjs";

const LAST_DATE = 253402300799;

/** The text of bytes where they are one that can be shown as it is: UTF-8 without characters that control how others look; else null. */
export function shownText(data) {
    try {
        const text = new TextDecoder("utf-8", { fatal: true, ignoreBOM: true }).decode(data);
        return /[^\P{C}\n\t]|[\p{Zl}\p{Zp}]/u.test(text) ? null : text;
    } catch {
        return null;
    }
}

export const hexOf = (bytes) => Array.from(bytes, (it) => it.toString(16).padStart(2, "0")).join("");

/** Keeps a foreign text's direction to itself, where it isn't plain. */
const isolated = (text) => (/[^\u0020-\u007e]/.test(text) ? `\u2068${text}\u2069` : text);

/** A foreign text with what nobody sees, what could end its quotes, and each blank behind two others as escapes. */
export const escaped = (text) => text.replace(/\p{Default_Ignorable_Code_Point}|[\u2800"\\\u201c-\u201f\u2033\u2036\u301d-\u301f\uff02]|(?<=\p{Zs}{2})\p{Zs}/gu,
    (letter) => (letter === '"' || letter === "\\" ? `\\${letter}` : `\\u{${letter.codePointAt(0).toString(16)}}`));

/** A foreign text within a sentence of the page's own. What shows it gives it an element of its own; where there are letters alone it stands in quotes. */
export class Foreign {
    constructor(text, end = "") {
        this.inside = escaped(text);
        this.end = end;
    }

    get text() {
        return this.inside + this.end;
    }

    toString() {
        return `“${isolated(this.inside)}${this.end}”`;
    }
}

/** A sentence in pieces: the page's own words, and foreign texts apart. */
export class Sentence {
    constructor(pieces) {
        this.pieces = pieces;
    }

    toString() {
        return this.pieces.join("");
    }
}

/** A sentence of own words, in which foreign texts and sentences stand as pieces. */
export function said(strings, ...values) {
    const pieces = strings.flatMap((own, at) => [own, ...(at < values.length ? [values[at]] : [])]);
    return new Sentence(pieces.flatMap((it) => (it instanceof Sentence ? it.pieces : [it instanceof Foreign ? it : String(it)])));
}

/** The file that an event of a log of files is of: {path, digest}; null of another event, and of one whose path can't be shown as it stands. */
export function loggedFile(data) {
    const found = readRecorded(data), path = found && shownText(found.path)?.replace(/^\.\//, "");
    return path && !/[\n\t]/.test(path) ? { path, digest: found.digest } : null;
}

/** A foreign text in at most so many characters of its first line. */
function shortened(text, most) {
    const [line] = text.split("\n"), letters = [...line], isWhole = line === text && letters.length <= most;
    return new Foreign(letters.slice(0, isWhole ? most : most - 1).join(""), isWhole ? "" : "…");
}

/**
 * The bytes of an event in at most so many characters: that of a log of files as the file, with its digest or so many digits of it, another one as its text, a foreign
 * one, or what else it is in own words.
 */
export function eventWords(data, most = 80, digits = 64) {
    if (!data.length) return "(no bytes)";
    const text = shownText(data), file = loggedFile(data);
    if (text === null) return `(${data.length} bytes that are no text)`;
    const digest = file && (digits < 64 ? `${file.digest.slice(0, digits)}..` : file.digest);
    if (file) return file.path === "-" ? fill("unnamed file", { digest }) : fill("file", { path: shortened(file.path, most), digest });
    return shortened(text, most);
}

/** The same where there is little room, as in a picture: of a file its path alone. */
export const eventLabel = (data, most) => (loggedFile(data) ? shortened(loggedFile(data).path.split("/").at(-1), most) : eventWords(data, most));

/** A time in seconds, as a date where it is one. */
export function timeWords(seconds) {
    return seconds <= LAST_DATE ? `${new Date(seconds * 1000).toISOString().slice(0, 19).replace("T", " ")} UTC` : `second ${seconds} since 1970`;
}

const listed = (words) => (words.length < 2 ? words.join("") : `${words.slice(0, -1).join(", ")} and ${words.at(-1)}`);
export const capital = (text) => text.slice(0, 1).toUpperCase() + text.slice(1);

/** A text whose words in braces are filled, in pieces: a foreign text stays one of its own. */
function filled(template, values) {
    const parts = template.split(/\{(\w+)\}/), missing = parts.find((name, at) => at % 2 && !Object.hasOwn(values, name));
    if (missing !== undefined) throw new Error(`nothing is given for ${missing} of: ${template}`);
    return said(parts.filter((_, at) => at % 2 === 0), ...parts.filter((_, at) => at % 2).map((name) => values[name]));
}

/** A sentence that weft says too, filled. */
export const fill = (key, values = {}) => filled(SENTENCES[key], values);

/** What is said first, and what stands behind it there. */
export const headline = (key, aside = "") => `${capital(HEADLINES[key])}${aside && `: ${aside}`}`;

const eventSentence = ({ service, step, index, data }) => fill("event", { service, step, index, event: eventWords(data) });

/** What is said of a claimed time. */
export const timeNote = ({ service, step, time }) => `${fill("time", { service, step, time: timeWords(time) })}`;

/** What is said of the order of two events. */
const orderSentence = ({ hops, events: [first, second] }) => (hops.length ? `${fill("order")}.` : fill("order in one history", { first: first.step, second: second.step }));

/** Whether a hop is on its receiver's word alone. */
const isOnWord = ({ carried }, { service, step }) => carried.some((it) => it.service === service && it.step === step);

/** Who received what is carried, each of whom could have made it up. */
const receivers = (report) => [...new Set(report.hops.filter((hop) => isOnWord(report, hop)).map(({ by }) => by))];

/** What is so by the word of those alone. */
const byWord = (report, told) => fill("by word", { whose: listed(receivers(report).map((by) => `${by}'s`)), told });

/** Whether an event is so by somebody's word alone: the first one, where the first hop is carried. */
const isWordEvent = (report, place) => place === 0 && report.hops.length > 0 && isOnWord(report, report.hops[0]);

/** What is said first of two events whose way rests on somebody's word: what is so by that alone says so. */
function wordSentence(report) {
    const [first, second] = report.events;
    if (isWordEvent(report, 0)) return said`${byWord(report, eventSentence(first))} ${fill("word order", second)}.`;
    return said`${eventSentence(first)} ${eventSentence(second)} ${byWord(report, fill("order"))}.`;
}

/** What is shown by lines where the rest is on somebody's word, and what isn't. */
export function wordNotes(report, own) {
    const { hops, events: [, second] } = report, on = hops.map((hop) => isOnWord(report, hop));
    if (!report.carried.length) return [];
    const shown = isWordEvent(report, 0) ? fill("shown by lines", { told: eventSentence(second) }) : fill("both by lines");
    const accounts = hops.filter((_, at) => on[at] && !on[at + 1]).map((hop) => `${fill("account", hop)}`);
    return [shown, ...accounts, ...carriedNotes(report, own)];
}

/** What to do about that: what is to be asked, and of whom. */
export const askForLinks = (report) => `${fill("ask for links", {
    steps: listed(report.hops.filter((hop) => isOnWord(report, hop)).map(({ step, service }) => `step ${step} of ${service}`)), by: listed(receivers(report)),
})}`;

/** What is said of each time that an event's step claims. */
export const timeNotes = (report) => report.events.flatMap((event, place) => {
    if (event.time === undefined) return [];
    if (!report.carried.length || report.kind !== "precedes") return [timeNote(event)];
    return [isWordEvent(report, place) ? byWord(report, timeNote(event)) : isWordEvent(report, 0) ? fill("shown by lines", { told: timeNote(event) }) : timeNote(event)];
});

/** What an accepted proof shows, for each kind. */
const SHOWN = {
    exists: ({ events: [event] }) => eventSentence(event),
    precedes: (report) => (report.carried.length ? wordSentence(report) : said`${eventSentence(report.events[0])} ${eventSentence(report.events[1])} ${orderSentence(report)}`),
    thread: ({ received: { service, step, thread, archived } }) =>
        `${fill("thread", { service, step, received: thread.step, peer: thread.service, authenticator: thread.authenticator, archived })}`,
    absent: ({ absent: { service, step, ofService, ofStep } }) => `${fill("absent", { service, step, peer: ofService, absent: ofStep })}`,
    link: ({ link: { thread, top } }) => `${fill("link", { ...thread, top })}`,
};

/** What an accepted map shows of a service's step among those of a peer. */
SHOWN.map = ({ map }) => {
    const before = fill(map.low === 0 ? "none before" : "last before", map), after = fill(map.high === undefined ? "none after" : "first after", map);
    return `${fill("map", { ...map, before, after })}`;
};

const receivedSentence = ({ thread, by, archived }) => `${fill("received", { ...thread, by, archived })}`;

/** What accepted evidence shows of the service in whose name it is. */
SHOWN.fork = ({ fork: { first, second } }) => `${receivedSentence(first)} ${receivedSentence(second)} ${fill("no history", first.thread)}`;

/** What is said of evidence besides: who may have broken a rule, and of a receiver of both which one it broke, as the verifier says. */
export function forkNotes({ fork, broken }) {
    if (!fork) return [];
    const { first, second } = fork, { service } = first.thread;
    if (first.by !== second.by) return [`${fill("two receivers", { service, first: first.by, second: second.by })}`];
    return [`${broken ? fill("broken receiver", { service, by: first.by, rule: ruleWords(broken) }) : fill("one receiver", { service, by: first.by })}`];
}

/** What is said of a map besides. */
export const mapNotes = ({ map }) => (map ? [`${fill("behind", map)}`] : []);

/** What it means that a rule is broken; of one that isn't known here its name. */
const ruleWords = ({ service, rule, name }) => (Object.hasOwn(RULES, name) ? `${filled(RULES[name], { service })}` : `rule ${rule}, ${name}`);

/** What two files show of a broken rule, or one file by itself. */
function brokenWords({ service, rule, name, lines, received, absent }, key) {
    if (received && key === "broken rule") {
        const { thread, archived } = received;
        return `${fill("denied", { service, step: thread.step, peer: thread.service, archived, upto: absent.step })}`;
    }
    const whole = lines.join("; "), isKnown = Object.hasOwn(RULES, name);
    return `${fill(key, { number: rule, name, said: isKnown ? `${ruleWords({ service, rule, name })} (${whole})` : whole })}`;
}

/** What is said of two accepted files that contradict each other: whose rule is broken, whether that is shown, and that nobody else is meant. */
export function conflictWords(told) {
    const { service } = told;
    return {
        sentence: `${brokenWords(told, "broken rule")} ${fill(told.isJoined ? "one line" : "two lines", { service })} ${fill("nobody else")}`,
        todo: `${fill("keep files")}`,
    };
}

/** What is said of a file that contradicts itself. */
export const refutedWords = (told) => ({ sentence: brokenWords(told, "broken by itself"), todo: `${fill("one file", told)}` });

/** The sentence of a report. */
export function shownSentence(report) {
    return SHOWN[report.kind](report);
}

/** The lines of other steps that an accepted report tells: that of a received thread or of a link, and those that are carried. */
export const toldLines = (report) => [report.received?.thread ?? report.link?.thread, ...report.carried].filter((it) => it !== undefined);

const FRONT = 16;
const keepBoth = ({ service }) => `${fill("keep both", { service })}`;
const otherLine = (line) => capital(`${fill("other line", { ...line, came: "", told: line.authenticator.slice(0, FRONT) })}`);

/** What is wrong with a line that somebody typed. */
export function typedWords({ fault, number, service, step, digits, row, said: more }) {
    const told = `${fill(fault, { number, service, step, count: digits.length, row, said: more })}`;
    return fault === "row check" && more ? `${told} ${fill("row guess", { said: more })}` : told;
}

/** What is said of a kept line that came by a key's signature. */
export const signedWords = ({ service, step, how }) => said`The line of step ${step} of ${service} is kept as ${new Foreign(how)}, and a page knows nothing of keys.`;

/** That two of these lines of one step differ so little that one was typed wrong, where two do; else null. */
export function slipWords(lines) {
    for (const [at, one] of lines.entries()) {
        for (const other of lines.slice(at + 1)) {
            const slip = findSlip(one.authenticator, other.authenticator);
            if (slip) return `${fill("slip between", { ...one, where: slip.where, one: slip.one, other: slip.other })}`;
        }
    }
    return null;
}

/** What is said of a line of yours under which a proof isn't accepted, and would be were it typed otherwise. */
export const slipHeldWords = ({ line, slip }) => `${fill("slip", { ...line, where: slip.where, right: slip.other, wrong: slip.one })}`;

/** What is said of an accepted file that tells another line of a step than one of yours; which it tells under the line of yours, where it does. */
export function otherLineWords(line, own = [], under = undefined) {
    const mine = own.filter((it) => it.service === line.service && it.step === line.step && it.authenticator !== line.authenticator), slip = slipWords([line, ...mine]);
    const { sentence, title, ...words } = otherHistoryWords({ ...mine[0], under }, [line]);
    return { ...words, aside: slip ? `${fill("typed rightly")}` : asideOf(under), sentence: slip ? `${slip} ${otherLine(line)}` : under ? sentence : otherLine(line) };
}

/** What stands behind the title where a line of yours contradicts another one, or the file. */
const asideOf = (under) => `${fill(under ? "own lines" : "line and file")}`;

/** What is said of an accepted file that isn't of the history of a line of yours, of a step of which it tells no line, or `told`; it is so under another line of yours, or not. */
export function otherHistoryWords({ under, ...line }, told = []) {
    const { service, step } = line, twoHistories = `${fill("two histories", { service })}`;
    return {
        title: headline("NOT_SHOWN", asideOf(under)),
        sentence: under ? `${fill("own lines told", { service, step, other: under.step })} ${twoHistories}` : `The line of step ${step} of ${service} that you hold isn't of the history of this file: ${twoHistories}`,
        lines: [line, ...(under ? [under] : told)],
        todo: `${keepBoth({ service })} ${fill("in doubt", { service })}`,
    };
}

/** What to do where a line of yours couldn't be held against an accepted file. */
export const unheldWords = (lines) => `You hold ${listed(lines.map(({ service, step }) => `the line of step ${step} of ${service}`))}, and whether this file is of that history isn't seen here: `
    + "weft judge sees it. Or ask for the link between that line and the one that counted.";

/** What is said where some accepted files weren't held against all others. */
export const uncomparedWords = (count) => `${count.toLocaleString("en")} of the accepted files on what services received weren't compared with the others: they are too many for a page. weft judge does that.`;

/** What is said of accepted files that tell two lines of one step, or of one file that does. */
export function twoLinesWords({ one, other }) {
    const told = { ...one, first: "The first file", one: one.authenticator.slice(0, FRONT), second: "the second file", other: other.authenticator.slice(0, FRONT) };
    return { sentence: `${fill("told twice", told)}`, todo: keepBoth(one) };
}

// ---- documents

/** What is said of a document beside the events of an accepted proof, by what it is to them. */
export function documentWords(report, beside) {
    const told = plainDocumentWords(report, beside);
    return beside.places.some((place) => isWordEvent(report, place)) ? byWord(report, told) : told;
}

/** The same without on whose word it is. */
function plainDocumentWords({ events }, { document: { name }, match, places }) {
    const file = new Foreign(name), as = events.length > 1 ? " as" : "", which = listed(places.map((place) => `${fill(place ? "later event" : "earlier event")}`));
    if (match === "same") return fill(`same file${as}`, { file, which });
    if (match === "renamed") return fill(`renamed file${as}`, { file, which, names: new Foreign(loggedFile(events[places[0]].data)?.path.split("/").at(-1) ?? "?") });
    if (match === "unread") return fill("unread file", { file });
    if (match === "no entry") return fill(as ? "no files" : "no file", { told: said(["", ...events.slice(1).map(() => "; "), ""], ...events.map(({ data }) => eventWords(data))) });
    const isNamesake = events.some(({ data }) => isNamed(data, name)), areBoth = events.filter(({ data }) => readRecorded(data)).length > 1;
    return fill(isNamesake ? "namesake" : areBoth ? "other file than both" : "other file", { file });
}

/** The digests of what was recorded and of a document that is another file, as lines of one width. */
const digestsApart = ({ events }, { document: { digest } }) => [
    ...new Set(events.flatMap(({ data }) => readRecorded(data)?.digest ?? []).map((it) => `${fill("digest recorded", { digest: it })}`)), `${fill("digest given", { digest })}`,
].join("\n");

/** What is said above all else of an accepted proof that names files where no document was given, and in the title of one that is shown. */
export function undocumentedWords({ report, documents = [] }) {
    const files = report.events.map(({ data }) => data).filter(readRecorded);
    if (documents.length || !files.length) return null;
    const names = [...new Set(files.map(ownName))].map((it) => (it ? new Foreign(it) : "document")), some = said(["", ...names.slice(1).map(() => " or "), ""], ...names);
    return { aside: `${fill("no document")}`, first: said`${fill("document not given", { names: some })} Put it into the third field.` };
}

/** The name of the file of an event; none where it can't be shown, and where a digest was recorded without one. */
function ownName(data) {
    const path = loggedFile(data)?.path;
    return path && path !== "-" ? path.split("/").at(-1) : "";
}

/** What is said first of an accepted proof whose events none of the documents is the file of, or of some that couldn't be read: {look, title, sentence, todo}. */
export function otherFileWords(report, beside) {
    const unread = beside.find(({ match }) => match === "unread"), words = beside.map((it) => documentWords(report, it)), sentence = said(["", ...words.slice(1).map(() => " "), ""], ...words);
    if (unread) return { look: "open", title: headline("NOT_JUDGED"), sentence: documentWords(report, unread), todo: "Take it again, or remove it." };
    const isNoFile = beside.every(({ match }) => match === "no entry");
    const title = headline("NOT_SHOWN", `${fill(isNoFile ? "as no file" : "not this file")}`);
    return { look: "no", title, sentence: isNoFile ? words[0] : sentence, apart: isNoFile ? "" : beside.map((it) => digestsApart(report, it)).join("\n"), todo: isNoFile ? "" : `${fill("other version")}` };
}

/** What is said of a document that no judgement tells of, by the proofs of events that are there: whether one is `accepted`, else `unjudged`, else `refused`, or none. */
export function strayWords({ document: { name, belongs }, proofs }) {
    const file = new Foreign(name), open = { look: "open", title: headline("NOT_JUDGED") };
    if (proofs === "accepted") return { look: "no", title: headline("NOT_SHOWN", `${fill("not this file")}`), sentence: fill("other file", { file }), todo: `${fill("other version")}` };
    if (proofs === "unjudged") return { ...open, sentence: fill("proof not judged", { file }), todo: "Do first what is told there; the document is compared as soon as the proof is judged." };
    if (proofs === "refused") return { ...open, sentence: fill("proof not accepted", { file }), todo: "See above why not, and what to do." };
    return { ...open, sentence: fill("without proof", { file }), todo: belongs ? "It may belong into another field: the button beside it puts it there." : "Ask whoever sent it for its proof, and put that among what you were sent." };
}

/** What is said of a file that is none of Timeweave's, or of a bundle that has such a one in the place of its proof. */
export const unknownWords = ({ name, size }, bundle) => (bundle ? { sentence: fill("no format", { file: said`The proof in ${new Foreign(name)}` }), todo: `${fill("ask for bundle")}` } : {
    sentence: size ? fill("no format", { file: new Foreign(name) }) : said`${new Foreign(name)} is empty, so nothing of it is judged.`,
    todo: size ? `${fill("is it the document")} Have you that too, press “It is the document” above. Was it a proof, it was changed on its way: ask for it packed or attached as it is.` : "Ask for it again.",
});

// ---- bundles

const stepOf = ({ service, step }) => `the line of step ${step} of ${service}`;

/** What is said of a bundle that can't be opened: why. */
export function unopenedWords({ name, opened: { fault, unfit, text, number, count } }) {
    const file = new Foreign(name), again = `${fill("ask for bundle")}`, document = `${fill("is it the document")} Have you that too, press “It is the document” above.`;
    if (fault === "no line") return { sentence: said`Line ${number} of ${file}: ${text} is no line of a service.`, todo: again };
    if (fault === "apart") return { sentence: said`${fill("bundle apart", { file })}.`, todo: "Ask for a bundle of each." };
    if (fault === "many lines") return { sentence: said`${fill("bundle many lines", { file, count, most: MOST_NUMBER })}.`, todo: "Ask for one of a single proof." };
    return { sentence: said`${fill("no bundle", { file, why: fill(`unfit ${unfit.toLowerCase()}`) })}.`, todo: `${again} ${document}` };
}

/** What is said of the lines of a bundle: what meets each that the reader didn't make count, and what stands beside them that this page doesn't check. */
export function bundleNotes({ bundle, met, anchors }) {
    if (!bundle) return [];
    const isCounted = (line) => heldAs(line, anchors.filter(({ from }) => from.isSender)) === "the same";
    const told = met.filter(({ line, met: key }) => key !== "bundle other" && !isCounted(line)).map(({ line, met: key }) => `${fill(key, line)}`);
    const { stamped, signed } = bundle.opened;
    return [...told, ...uncheckedWords("stamp", stamped), ...uncheckedWords("signature", signed)];
}

/** That there are stamps or signatures of these lines, and that a page checks none. */
const uncheckedWords = (what, lines) => (lines.length ? [`It has a ${what} of ${listed(lines.map(stepOf))}. This page checks no ${what}s, so none counts here: \`weft judge BUNDLE\` checks them.`] : []);

/** What else to do about lines that are missing, where a bundle has of one of them what a page doesn't check. */
export function elseWords({ bundle, missing }) {
    const lacking = [missing, ...(missing.others ?? [])], { stamped = [], signed = [] } = bundle?.opened ?? {};
    const has = (lines) => lines.some((line) => lacking.some(({ service, step }) => service === line.service && step === line.step));
    const kinds = [...(has(stamped) ? ["stamps"] : []), ...(has(signed) ? ["signatures"] : [])];
    return kinds.length ? ` Or judge it by \`weft judge BUNDLE\`, which checks its ${listed(kinds)}.` : "";
}

/** What is said first of a bundle that has a record, and a proof of no event. */
export const recordsWithoutEvent = ({ bundle }) => ({ sentence: fill("no event", { file: new Foreign(bundle.opened.records[0].name) }), todo: "Ask for a bundle with the proof of its event." });

/** What is said first of a bundle that has another line of a step than yours, beside what is said of its proof: that isn't called shown. */
export function otherBundledWords({ met = [], own }, head) {
    const other = met.find((it) => it.met === "bundle other");
    if (!other) return head;
    const { sentence, lines, todo } = otherLineWords(other.line, own), isShown = head.look === "yes" || head.look === "partly";
    if (isShown) return { look: "no", title: headline("NOT_SHOWN"), sentence, lines, todo };
    return { ...head, first: sentence, lines: [...(head.lines ?? []), ...lines], todo: `${head.todo} ${todo}` };
}

/** What is said of a whole history, of which the verifier in a page judges nothing. */
export const historyWords = ({ name }) => ({
    sentence: said`${new Foreign(name)} is a whole history, and no proof, so this page doesn't judge it: \`weft judge HISTORY --kept LINES\` does.`,
    todo: "Judge it by that command, under the lines that you got another way. Or ask for the proof of the event alone, which this page judges.",
});

/** Who alone says that a carried thread is right: the service that received it. */
const receiverOf = ({ hops }, { service, step }) => hops.find((hop) => hop.service === service && hop.step === step).by;

/** What is said of each thread that is carried: its receiver's word, held against the lines of yours. */
export function carriedNotes(report, own) {
    return report.carried.map((thread) => ({
        none: () => `${fill("carried", { ...thread, by: receiverOf(report, thread) })}`,
        "the same": () => `${fill("same line", thread)}`,
        "another one": () => otherLine(thread),
    })[heldAs(thread, own)]());
}

/** What is said of each line of yours that a proof carries. */
export const heldNotes = ({ held = [] }) => held.map((line) => `${fill("same line", line)}`);

/** What is said of hops none of which is carried, where all lines that counted are yours. */
export const boundSentence = () => `${fill("bound")}`;

/** What a line that the report shows is to the lines of yours: the same, another one of that step, or neither. */
export function shownLineNotes(report, own) {
    const thread = report.received?.thread ?? report.link?.thread;
    if (!thread) return [];
    const maker = report.received ? [`${fill("maker", { peer: thread.service })}`] : [], held = heldAs(thread, own);
    return held === "none" ? maker : held === "the same" ? [`${fill("same line", thread)}`] : [otherLine(thread)];
}

/** What is said of a reason by its name, with the fields behind it. */
function reasonOf(name, fields) {
    const { sentence, todo } = REASONS[name] ?? { sentence: "It isn't accepted, for the reason below.", todo: "" }, values = { 0: "?", 1: "?", ...fields };
    return { sentence: `${filled(sentence, values)}`, todo: `${filled(todo, values)}` };
}

/** What is said of a rejected proof, or of evidence, by the text. */
export function reasonWords(text) {
    const [, , name, ...fields] = text.trim().split(" ");
    return reasonOf(name, fields);
}

/** What is said of two map files that aren't accepted, by the text: which one, and why. */
export function mapReasonWords(text) {
    const [, which, name, place] = text.trim().split(" "), part = text.trim().split(" ").at(-1);
    if (text.startsWith("unreadable")) return ofFile(which, reasonOf("Malformed", [place]));
    if (which === "Gap") return reasonOf("Gap", []);
    return ["0", "1"].includes(part) ? ofFile(part === "0" ? "low" : "high", reasonOf(name, [part])) : reasonOf(name, []);
}

/** A reason of one of two files. */
const ofFile = (which, { sentence, todo }) => ({ sentence: `The ${which} file isn't accepted. ${sentence}`, todo });

/** What is said of a map file without the other one. */
export function aloneWords({ isLow, service, step, peer }) {
    const [this_, other] = isLow ? ["low", "high"] : ["high", "low"];
    return {
        sentence: `It isn't judged yet: it is the ${this_} file of a map of step ${step} of ${service} among the steps of ${peer}, and the ${other} file belongs to it.`,
        todo: `Ask the sender for the ${other} file too.`,
    };
}

/** What is said where the verifier has no function for it, by the command that has. */
const COMMANDS = { timeweave_checkmap: "checkmap LOW HIGH ANCHORS", timeweave_checkfork: "checkfork FILE ANCHORS" };
export const lacksWords = (call) => ({ sentence: "This page's verifier doesn't judge such a file.", todo: `\`timeweave ${COMMANDS[call]}\` does.` });

/** What is said where a line that the proof needs can't be held: of `missing` as chooseLines answers it, with the lines of yours. */
export function missingWords({ others = [], ...first }, own) {
    const each = [first, ...others].map((it) => oneMissing(it, own)), whole = (key) => each.map((it) => it[key]).filter((it) => it).join(" "), isOnlyNow = each.some(({ isLacking }) => isLacking);
    return { sentence: whole("sentence"), todo: `${whole("todo")}${isOnlyNow ? ` ${fill("only now")}` : ""}` };
}

/** The same of one of the lines. */
function oneMissing({ service, step, two, offered = [], other }, own) {
    if (two) {
        return {
            sentence: `It isn't judged: it needs the line of step ${step} of ${service}, and you hold ${two.length} different ones.`,
            todo: "At most one of them is right. Find out which, and choose it above.",
        };
    }
    if (other !== undefined) {
        return {
            sentence: `It isn't judged: it needs lines of two steps of ${service}, ${other} and ${step}, and one of a service counts.`,
            todo: `Ask for the proof with all its parts under one step of ${service}.`,
        };
    }
    const held = [...new Set(own.filter((it) => it.service === service).map((it) => it.step))].sort((a, b) => a - b);
    const steps = listed(held.slice(0, 20).map(String)), lacks = offered.length ? " Only the sender gave you one." : "";
    const ask = held.length ? ` Or ask for the proof under a step of ${service} that you hold a line of: ${steps}.` : "";
    return {
        isLacking: true,
        sentence: `${fill("missing", { service, step })}${lacks}`,
        todo: `${capital(`${fill("ask others", { service })}`)}.${ask}`,
    };
}

/** What is said of a proof that needs more lines than count. */
export const TOO_MANY_LINES = {
    sentence: "It isn't judged: it needs lines of more than 64 services, and 64 count at most.",
    todo: "Ask for a proof over fewer services.",
};

/** What is said where the module had no memory. */
export const WITHOUT_MEMORY = { sentence: "There was no memory for it.", todo: "Close other pages, or judge it by `timeweave verify`." };

/** What is said where the module trapped. */
export function faultWords(fault) {
    return { sentence: `The verifier stopped on this file (${fault.message}).`, todo: "Judge it by `timeweave verify`, and tell Timeweave's makers." };
}
