/** What is shown, made as elements; foreign text goes in as text, never as markup. */

import { ACCEPTED, BAD_ANCHORS, NO_MEMORY } from "../timeweave.mjs";
import { mapOf, sizeText } from "./files.mjs";
import { inGroups } from "./letters.mjs";
import { heldAs } from "./lines.mjs";
import { asLines, asList, drawing, isShownAsLines, legendOf, pointWords } from "./picture.mjs";
import { DOCUMENT, OWN, SENT, besideDocuments, besideRecords, filesRecorded, isThatFile, lineUnder } from "./session.mjs";
import {
    Foreign, Sentence, TOO_MANY_LINES, WITHOUT_MEMORY, aloneWords, askForLinks, boundSentence, bundleNotes, conflictWords, documentWords, elseWords, escaped, eventWords, faultWords, forkNotes, headline, hexOf, historyWords, lacksWords, mapNotes,
    mapReasonWords, missingWords, otherBundledWords, otherFileWords, otherHistoryWords, otherLineWords, reasonWords, recordsWithoutEvent, refutedWords, said, shownLineNotes, shownSentence, shownText, signedWords, slipHeldWords, slipWords, timeNotes, typedWords, strayWords, toldLines, twoLinesWords, uncomparedWords, undocumentedWords, unopenedWords, unheldWords, unknownWords, wordNotes, heldNotes,
    fill,
} from "./words.mjs";

const MOST_LISTED = 20;

/** The pieces of a sentence, in which each foreign text is an element of its own. */
const piecesOf = (it) => (it instanceof Sentence ? it.pieces.flatMap(piecesOf) : it instanceof Foreign ? [element("bdi", { className: "foreign" }, it.text)] : [it]);

/** An element with properties, and with elements, sentences and texts in it. */
export function element(name, properties = {}, ...inside) {
    const made = Object.assign(document.createElement(name), properties);
    made.append(...inside.filter((it) => it !== null && it !== undefined).flatMap(piecesOf));
    return made;
}

const button = (text, onclick, label = text) => {
    const made = element("button", { type: "button", onclick }, text);
    if (label !== text) made.setAttribute("aria-label", label);
    return made;
};

const paragraph = (className, ...inside) => element("p", { className }, ...inside);
/** A foreign text of several lines, which stands in a block of its own: blanks as they are. */
const wholeText = (text) => element("bdi", { className: "foreign" }, text);
const foreign = (text) => element("bdi", { className: "foreign" }, escaped(text));
const number = (count) => count.toLocaleString("en");
const lineText = ({ service, step, authenticator }) => `${service} ${step} ${authenticator}`;

/** Where a line came from, in words. */
function originWords({ from, number: line, day, how }) {
    if (from.isSender) return ["from the sender, in ", foreign(from.name), `, line ${line}; it counts since you said so`];
    return ["got another way: ", foreign(from.name), `, line ${line}`, ...(day ? [`, kept ${day}`] : []), ...(how ? [", ", foreign(how)] : [])];
}

// ---- the files that are held

const KIND_WORDS = {
    proof: "judged below", map: "map file, judged below", evidence: "evidence, judged below", message: "message", receipt: "receipt", events: "events file", history: "history",
    unknown: "no file of Timeweave", document: "the document",
};

/** What puts a file into another field. */
const MOVES = { [SENT]: "Put it among what you were sent", [OWN]: "You got them another way", [DOCUMENT]: "It is the document" };

function fileWords(file) {
    if (file.kind === "bundle") return file.opened.fault ? "no bundle of Timeweave" : "bundle, judged below";
    return file.kind === "lines" ? `${number(file.lines.length)} line${file.lines.length === 1 ? "" : "s"}` : KIND_WORDS[file.kind];
}

function badLines({ bad }) {
    if (!bad.length) return [];
    const shown = bad.slice(0, 3).map((line) => paragraph("problem", line.typed ? `Line ${line.number} doesn't count. ${typedWords(line.typed)}` : `Line ${line.number} doesn't count: ${line.why}.`));
    return bad.length > 3 ? [...shown, paragraph("problem", `And ${number(bad.length - 3)} more that don't count.`)] : shown;
}

/** The lines of a file beside which other words stand, or that count by a key alone, which don't count before a person has read what stands there. */
function foundLines({ found = [] }, onFound) {
    return found.map((line) => paragraph("problem", line.how ? signedWords(line) : fill("amid words", { ...line, digits: inGroups(line.authenticator) }), " ",
        onFound ? button("Read, and meant: count it", () => onFound(line), `Count the line of step ${line.step} of ${line.service}`) : ""));
}

/** The sender's lines of a file, grey. */
function sendersLines({ lines }) {
    const shown = lines.slice(0, 5).map((line) => element("p", {}, element("code", {}, lineText(line))));
    const rest = lines.length > 5 ? [element("p", {}, `and ${number(lines.length - 5)} more`)] : [];
    return element("div", { className: "sender" }, element("p", {}, "From the sender, who could have made them up: they don't check him."), ...shown, ...rest);
}

/** The list of the files at a place; `onMove` is given the other field to which one belongs, `onFound` a line of it that is to count. */
export function heldFiles(session, place, onRemove, onMove, onFound) {
    const files = session.files.filter((file) => file.place === place);
    if (!files.length) return [];
    return [element("ul", {}, ...files.map((file) => {
        const remove = onRemove && button("Remove", () => onRemove(file), `Remove ${file.name}`);
        const what = element("span", { className: "soft" }, ` · ${sizeText(file.size)} · ${fileWords(file)}`);
        const row = element("div", { className: "row" }, element("span", {}, foreign(file.name), what), remove);
        const notes = file.notes.map((note) => paragraph("problem", note));
        const move = onMove && file.belongs ? paragraph("", button(MOVES[file.belongs], () => onMove(file, file.belongs), `${MOVES[file.belongs]}: ${file.name}`)) : null;
        const by = file.kind === "document" && file.digest ? paragraph("soft", "SHA-256 ", element("code", {}, file.digest), `, computed by ${file.by}`) : null;
        return element("li", {}, row, ...notes, ...badLines(file), ...foundLines(file, onFound && ((line) => onFound(file, line))), (file.kind === "lines" || file.lines.length) && place === SENT ? sendersLines(file) : null, by, move);
    }))];
}

// ---- lines that contradict each other

function choice(session, { service, step, lines }, onChange) {
    const key = `${service} ${step}`, name = `line of ${key}`;
    const option = (text, authenticator, origin) => {
        const checked = session.chosen.get(key) === authenticator, onchange = () => onChange(key, authenticator);
        const box = element("input", { type: "radio", name, checked, onchange });
        return element("label", {}, box, " ", text, ...(origin ? [" ", element("span", { className: "soft" }, ...origin)] : []));
    };
    return element("fieldset", { className: "alert" },
        element("legend", {}, element("b", {}, `Your lines of step ${step} of ${service} contradict each other.`)),
        ...(slipWords(lines) ? [element("p", {}, element("b", {}, slipWords(lines)))] : []),
        element("p", {}, `At most one is right; or ${service} has shown two histories. Keep both, with where you have them from. `
            + "Until you choose one, none of them counts."),
        ...lines.map((line) => option(element("code", {}, lineText(line)), line.authenticator, [foreign(line.from.name), `, line ${line.number}`])),
        option("Neither counts", undefined));
}

/** What is told of lines that contradict each other; `onChange` is given what the user chose. */
export function contradictionAlerts(session, onChange) {
    const { own, sent } = session.contradictions, shown = own.slice(0, MOST_LISTED).map((it) => choice(session, it, onChange));
    const others = sent.slice(0, MOST_LISTED).map(({ service, step, lines: [mine, theirs] }) => element("div", { className: "alert" },
        element("p", {}, element("b", {}, `${slipWords([mine, theirs]) ?? ""} The sender's line of step ${step} of ${service} contradicts yours.`.trim()),
            " Yours counts. Keep both: one of them is false, or the service has shown two histories."),
        element("p", {}, "yours ", element("code", {}, lineText(mine))),
        element("p", {}, "the sender's ", element("code", {}, lineText(theirs)))));
    const more = own.length + sent.length - shown.length - others.length;
    return [...shown, ...others, ...(more ? [paragraph("alert", `${number(more)} more steps have lines that contradict each other.`)] : [])];
}

// ---- a verdict

const MARKS = { yes: "✔", partly: "◐", no: "✘", open: "?" };

/** What is told of a judgement first: the look, the title, the sentence, and what to do. What is shown of events is so of the documents too, or isn't called shown. */
export function headOf(judged) {
    const head = bundledHead(judged), records = besideRecords(judged), beside = besideDocuments(judged), isShown = head.look === "yes" || head.look === "partly";
    if (isShown && isWithoutEvent(judged)) return { look: "open", title: headline("NOT_JUDGED"), ...recordsWithoutEvent(judged) };
    if (isShown && !records.every(isThatFile)) return otherFileWords(judged.report, records.filter((it) => !isThatFile(it)));
    if (isShown && beside.length && !filesRecorded(judged).length) return otherFileWords(judged.report, beside);
    const { aside, first } = (isShown && !records.length && undocumentedWords(judged)) || {};
    return first ? { ...head, first, title: head.title === headline("SHOWN") ? headline("SHOWN", aside) : head.title } : head;
}

/** Whether a bundle has a record, and in the place of a proof of an event another one, with which it can't be compared. */
const isWithoutEvent = ({ report, bundle }) => bundle?.opened.records.length > 0 && !report.events.length;

/** The same without the documents, of a bundle beside its lines. */
const bundledHead = (judged) => otherBundledWords(judged, verdictHead(judged));

/** The same of a file, or of the proof of a bundle, by itself. */
function verdictHead(judged) {
    const { call, answer, missing, report, anchors, file, own, fault, refuted } = judged, open = { look: "open", title: headline("NOT_JUDGED") };
    if (judged.isUnopened) return { ...open, ...unopenedWords(file) };
    if (judged.isUnknown) return { ...open, ...unknownWords(file, judged.bundle) };
    if (judged.isHistory) return { ...open, ...historyWords(file) };
    if (judged.lacks) return { ...open, ...lacksWords(call) };
    if (judged.isAlone) return { ...open, ...aloneWords(mapOf(file.bytes)) };
    if (fault) return { ...open, ...faultWords(fault) };
    if (missing) return { ...open, ...withElse(missingWords(missing, own), elseWords(judged)) };
    if (answer.status === NO_MEMORY) return { ...open, ...WITHOUT_MEMORY };
    if (answer.status === BAD_ANCHORS && answer.text.startsWith("unreadable anchors")) return { ...open, ...TOO_MANY_LINES };
    const why = call === "timeweave_checkmap" ? mapReasonWords : reasonWords;
    if (judged.slip) return { look: "no", title: headline("NOT_SHOWN", `${fill("typed rightly")}`), sentence: `${slipHeldWords(judged.slip)} ${why(answer.text).sentence}`, todo: why(answer.text).todo };
    if (answer.status !== ACCEPTED) return { look: "no", title: headline("NOT_SHOWN"), ...why(answer.text) };
    if (refuted) return { look: "no", title: headline("NOT_SHOWN", "it contradicts itself"), ...refutedWords(refuted) };
    const other = toldLines(report).find((line) => heldAs(line, own) === "another one");
    const { aside, ...words } = other ? otherLineWords(other, own, report.link && lineUnder(report, anchors, other)) : { aside: undefined };
    if (other) return { look: "no", title: headline("NOT_SHOWN", aside), ...words };
    if (judged.others?.length) return { look: "no", ...otherHistoryWords(judged.others[0]) };
    const sentence = shownSentence(report), isSenders = anchors.some(({ from }) => from.isSender);
    const todo = report.carried.length ? askForLinks(report) : undefined;
    if (isSenders) return { look: "partly", title: headline("IN_PART", "by the sender's own lines"), sentence: said`By the sender's own lines alone: ${sentence}`, todo };
    if (report.carried.length) return { look: "partly", title: headline("IN_PART", `${fill("on a word")}`), sentence, todo };
    if (judged.unheld?.length) return { look: "partly", title: headline("IN_PART", "a line of yours isn't compared with it"), sentence, todo: unheldWords(judged.unheld) };
    return { look: "yes", title: headline("SHOWN"), sentence };
}

const withElse = (words, more) => ({ ...words, todo: `${words.todo}${more}` });

const section = (title, ...inside) => (inside.length ? [element("h4", {}, title), ...inside] : []);
const notes = (texts) => (texts.length ? [element("ul", { className: "notes" }, ...texts.map((text) => element("li", {}, text)))] : []);

/** What is told of the documents: those whose file was recorded, else what was; and that a proof of no event is held against none. */
function documentNotes(judged) {
    const { report, documents = [], bundle } = judged, all = [...documents, ...(bundle?.opened.records ?? [])];
    if (!all.length || bundledHead(judged).look === "no") return [];
    if (isWithoutEvent(judged)) return [shownSentence(report)];
    if (!report.events.length) return all.map(({ name }) => fill("no event", { file: new Foreign(name) }));
    const found = filesRecorded(judged), records = besideRecords(judged), isOther = !records.every(isThatFile) || (documents.length > 0 && !found.length);
    return isOther ? [shownSentence(report)] : [...records, ...found].map((it) => documentWords(report, it));
}

function notesOf(judged) {
    const { report, anchors, own } = judged;
    const senders = anchors.filter(({ from }) => from.isSender).length;
    const sender = senders ? [`${senders === 1 ? "A line" : `${senders} lines`} that counted came from the sender, who could have made ${senders === 1 ? "it" : "them"} up: the sender isn't checked by that.`] : [];
    const hops = report.hops.length && !report.carried.length && !senders ? [boundSentence()] : [];
    return [...wordNotes(report, own), ...documentNotes(judged), ...sender, ...heldNotes(judged), ...shownLineNotes(report, own), ...forkNotes(report), ...mapNotes(report), ...timeNotes(report), ...hops];
}

/** The events whole, where the sentence doesn't show them so. */
function wholeEvents({ events }) {
    return events.filter(({ data }) => shownText(data) === null || `${eventWords(data)}` !== `${eventWords(data, 2000)}`).flatMap((event) => {
        const text = shownText(event.data), form = text === null ? ", in hexadecimal" : "";
        const title = `The event of ${event.service}, step ${event.step}: ${event.data.length} bytes${form}`;
        return section(title, element("pre", {}, wholeText(text ?? hexOf(event.data))));
    });
}

/** The picture of an accepted proof, for so many pixels. */
function figure({ report, anchors, held = [], own }, room) {
    const drawn = drawing(report, [...anchors, ...held], own), isLines = isShownAsLines(drawn, room);
    const words = pointWords(drawn).map(({ place, says }) => `${place}${says ? `: ${says}` : ""}`).join(". ");
    return element("figure", {}, isLines ? asLines(drawn, words) : asList(drawn), element("figcaption", {}, legendOf(drawn, isLines)));
}

function countingLines({ anchors, held = [] }, title = "Lines that counted") {
    if (!anchors.length) return [];
    const items = [...anchors, ...held].map((line) => element("li", {}, element("code", {}, lineText(line)), element("span", { className: "soft" }, " ", ...originWords(line))));
    return section(title, element("ul", { className: "lines-that-count" }, ...items));
}

/** Lines of yours that contradict each other or the file, each whole, with where it stands. */
const contradictingLines = (lines) => element("ul", { className: "lines-that-count" },
    ...lines.map((line) => element("li", {}, element("code", {}, lineText(line)), ...(line.from ? [element("span", { className: "soft" }, " ", ...originWords(line))] : [" told by the file"]))));

/** The sender's lines that the proof asks for, and those of them that count, each with a button. */
function offeredLines({ missing, anchors }, onCount) {
    const which = (line) => `the sender's line of step ${line.step} of ${line.service}`;
    const offered = [missing, ...(missing?.others ?? [])].flatMap((it) => it?.offered ?? []).map((line) => paragraph("sender",
        element("code", {}, lineText(line)), " from the sender, in ", foreign(line.from.name), ", who could have made it up: it doesn't check him. ",
        button("Count it all the same", () => onCount(line, true), `Count ${which(line)} all the same`)));
    const taken = anchors.filter(({ from }) => from.isSender).map((line) => paragraph("screen",
        button(`Don't count ${which(line)}`, () => onCount(line, false))));
    return [...offered, ...taken];
}

const TITLE_COUNTS = "What counts is the title above. “accepted” and “rejected” are the verifier's words for the file alone, under the lines that counted: it knows neither your other lines nor "
    + "the document, and rejects where a line is missing too. Its strict form rejects what rests on somebody's word.";

/** The exact texts of the verifier, and of its strict form, for other tools: folded until they are wanted, and on paper as they are. */
function exactTexts({ answer, strict = undefined }) {
    if (!answer) return [];
    const isOne = !strict || strict.text === answer.text;
    const own = section(`Exact text of the verifier${strict && isOne ? ", and of its strict form" : ""}`, element("pre", {}, answer.text));
    const parts = [paragraph("soft", TITLE_COUNTS), ...own, ...(isOne ? [] : section("Exact text of its strict form", element("pre", {}, strict.text)))];
    const folded = element("div", { className: "exact folded" }, button("The exact text, for another tool", ({ target }) => {
        folded.classList.toggle("folded");
        target.setAttribute("aria-expanded", String(!folded.classList.contains("folded")));
    }), ...parts);
    folded.firstElementChild.setAttribute("aria-expanded", "false");
    return [folded];
}

/** The names and sizes of files, in words. */
const namesOf = (files) => files.flatMap((file, at) => [at ? " and " : "", foreign(file.name), ` · ${sizeText(file.size)}`]);

/** What is said of two accepted files that contradict each other. */
const bothWords = ({ two, told }) => (two ? twoLinesWords(two) : conflictWords(told));

/** The article of two accepted files that contradict each other. */
export function conflictArticle({ first, second, two, told, anchors }) {
    const { sentence, todo } = bothWords({ two, told }), files = first === second ? [first] : [first, second];
    const title = two ? "Two lines of one step in accepted files" : "Two accepted files contradict each other";
    return element("article", { className: "verdict no" },
        element("header", {},
            element("h3", {}, element("span", { ariaHidden: "true" }, `${MARKS.no} `), title),
            element("p", {}, ...namesOf(files))),
        element("p", { className: "sentence" }, sentence),
        element("p", {}, element("b", {}, "What to do: "), todo),
        ...countingLines({ anchors }),
        ...exactTexts({ answer: told }));
}

/** The article that tells of accepted files that weren't held against all others; none where each was. */
export function uncomparedArticles(count) {
    if (!count) return [];
    const title = element("h3", {}, element("span", { ariaHidden: "true" }, `${MARKS.open} `), "Not all files were compared");
    return [element("article", { className: "verdict open" }, element("header", {}, title), element("p", { className: "sentence" }, uncomparedWords(count)))];
}

/** The articles of documents that no judgement tells of. */
export function strayArticles(stray) {
    return stray.map((it) => {
        const { look, title, sentence, todo } = strayWords(it);
        return element("article", { className: `verdict ${look}` },
            element("header", {}, element("h3", {}, element("span", { ariaHidden: "true" }, `${MARKS[look]} `), title), element("p", {}, ...namesOf([it.document]))),
            element("p", { className: "sentence" }, sentence),
            element("p", {}, element("b", {}, "What to do: "), todo));
    });
}

/** The article of a judgement. */
export function verdictArticle(judged, { room, onCount }) {
    const { report } = judged, { look, title, first, sentence, apart, lines, todo } = headOf(judged);
    const whatToDo = todo ? [element("p", {}, element("b", {}, "What to do: "), todo)] : [];
    return element("article", { className: `verdict ${look}` },
        element("header", {},
            element("h3", {}, element("span", { ariaHidden: "true" }, `${MARKS[look]} `), title),
            element("p", {}, ...namesOf(judged.bundle ? [judged.bundle] : judged.files))),
        first ? element("p", { className: "first" }, first) : null,
        element("p", { className: "sentence" }, sentence),
        apart ? element("pre", { className: "apart" }, apart) : null,
        ...(lines?.length ? [contradictingLines(lines)] : []),
        ...notes(bundleNotes(judged)),
        ...(look === "partly" ? [] : whatToDo),
        ...offeredLines(judged, onCount),
        ...(report ? notes(notesOf(judged)) : []),
        ...(look === "partly" ? whatToDo : []),
        ...(report && look !== "no" ? [figure(judged, room)] : []),
        ...(report ? wholeEvents(report) : []),
        ...countingLines(judged, look === "no" ? "Lines under which it was judged" : undefined),
        ...exactTexts(judged));
}

/** What is said of all verdicts to those who don't see them. */
export function summaryWords(judgements, conflicts = [], uncompared = 0, stray = []) {
    const told = judgements.map((judged) => [headOf(judged), judged.file]).map(([{ title, first, sentence }, { name }]) => said`${title}: ${first ? said`${first} ` : ""}${sentence} (File ${new Foreign(name)}.)`);
    const both = ({ first, second, two, told }) => said`Two files contradict each other: ${bothWords({ two, told }).sentence} (Files ${new Foreign(first.name)} and ${new Foreign(second.name)}.)`;
    return [...told, ...conflicts.map(both), ...(uncompared ? [uncomparedWords(uncompared)] : []), ...stray.map((it) => said`${strayWords(it).title}: ${strayWords(it).sentence}`)].join(" ");
}

// ---- what stands on a printed sheet besides

/** How a file's name is typed in a command. */
const typed = (name) => (/^[\w./+=@%-]+$/.test(name) ? name : `'${name.replaceAll("'", `'\\''`)}'`);

/** Where the proof of a bundle stands once it was taken out, and of map files the second one. */
const BUNDLED = ["opened/proof", "opened/proof-2"];

/** The commands that judge the same once more by other tools, of a bundle its proof, and the lines that they take; of files that weren't judged none. */
function againOf({ call, files, answer, anchors, bundle }) {
    if (!answer || !call) return { commands: [], lines: [] };
    const opened = bundle ? [`unzip -n ${typed(bundle.name)} -d opened`] : [], names = bundle ? BUNDLED.slice(0, files.length).join(" ") : files.map(({ name }) => typed(name)).join(" ");
    const words = `${call.replace("timeweave_", "")} ${names} LINES`;
    return { commands: [...opened, `timeweave ${words}`, `python3 reference/timeweave_reference ${words}`], lines: anchors.map(lineText) };
}

/** When it was judged, and how it is judged once more: for a sheet on paper. */
export function paperParts(judgements, now) {
    const each = judgements.map(againOf), commands = [...new Set(each.flatMap((it) => it.commands))], lines = [...new Set(each.flatMap((it) => it.lines))];
    const again = commands.length ? [element("h3", {}, "To judge it once more"), element("pre", {}, wholeText(commands.join("\n")))] : [];
    const anchors = lines.length ? [element("p", {}, "LINES is a file of these lines, each as it stands here:"), element("pre", {}, lines.join("\n"))] : [];
    return [element("p", {}, `Judged on ${now.toISOString().slice(0, 19).replace("T", " ")} UTC, by the clock of the machine that judged.`), ...again, ...anchors];
}

/** Sentences as items of a list, each with its first few words, up to a stop, in bold. */
export const boldItems = (keys) => keys.map((key) => {
    const text = `${fill(key)}`, end = text.indexOf(". ") + 1;
    return element("li", {}, element("b", {}, text.slice(0, end)), text.slice(end));
});

// ---- the digests of all files

/** The rows of the table of files. */
export function digestRows(files) {
    return files.map((file) => {
        const cells = [foreign(file.name), { [OWN]: "got another way", [SENT]: "the sender", [DOCUMENT]: "the document" }[file.place], `${number(file.size)} bytes`, element("code", {}, file.digest ?? file.fault ?? "being computed")];
        return element("tr", {}, ...cells.map((it) => element("td", {}, it)));
    });
}
