/** The page: takes files, has them judged, and shows what comes of it. */

import { Timeweave } from "../timeweave.mjs";
import { digestOfBlob } from "./documents.mjs";
import { DOCUMENT, OWN, SENT, Session, readFile, takeFile } from "./session.mjs";
import { boldItems, conflictArticle, contradictionAlerts, digestRows, element, heldFiles, paperParts, strayArticles, summaryWords, uncomparedArticles, verdictArticle } from "./view.mjs";
import { fill } from "./words.mjs";

const at = (id) => document.getElementById(id);
const fieldAt = (id) => /** @type {HTMLInputElement} */ (at(id));
const bytesOfBase64 = (text) => Uint8Array.from(atob(text), (it) => it.charCodeAt(0));
const settled = () => new Promise((done) => setTimeout(done));

const own = new Session();
let session = own, alerted = own, timeweave, round = 0, judgements = [], conflicts = [];

// ---- digests

/** Computes a file's digest, with who computed it; of one that can't be read the fault stays with it. `onPiece` is given how many bytes were read. */
async function digest(file, onPiece = settled) {
    try {
        if (!file.digest) Object.assign(file, await digestOfBlob(file.blob, onPiece));
    } catch {
        file.fault = "not computed: the file can't be read any more";
    }
}

/** Computes a document's digest, with progress: it is judged by that. */
function digestDocument(file) {
    return digest(file, (count) => {
        at("progress").textContent = `Reading ${file.name}: ${Math.floor((100 * count) / file.size)} %`;
        return settled();
    });
}

async function digestAll(files) {
    for (const file of files) await digest(file);
    at("digests").querySelector("tbody").replaceChildren(...digestRows(session.files));
}

// ---- showing

/** Removes a file; who was at its button is at the field's choice of files then. */
function remove(file) {
    own.remove(file);
    at(`${file.place}-files`).focus();
    show();
}

/** Lets a line of a file count that was found amid other words. */
function count(file, line) {
    file.found = file.found.filter((it) => it !== line);
    file.lines.push(line);
    show();
}

/** Puts a file into another field. */
async function move(file, place) {
    const moved = file.size > file.bytes.length ? await takeFile(file.blob, file.name, place) : readFile({ ...file, place });
    own.remove(file);
    own.add(moved);
    at(`${place}-files`).focus();
    if (place === DOCUMENT) await digestDocument(moved);
    show();
}

function showFiles() {
    const onRemove = session === own ? remove : null, onMove = session === own ? move : null;
    for (const place of [SENT, OWN, DOCUMENT]) at(`${place}-held`).replaceChildren(...heldFiles(session, place, onRemove, onMove, onMove && count));
    at("shown-example").hidden = session === own;
    const aside = own.files.length ? "Your own files are set aside." : "";
    at("shown-example").firstElementChild.textContent = session === own ? "" : `Example: ${session.title}. ${aside}`;
    for (const made of at("examples").querySelectorAll("button")) made.setAttribute("aria-pressed", String(made.textContent === session.title));
    at("digests").hidden = !session.files.length;
    at("digests").querySelector("tbody").replaceChildren(...digestRows(session.files));
    at("clear").hidden = session !== own || !own.files.length;
    at("print").hidden = !session.files.length;
}

/** The room for a picture in an article. */
const room = () => at("judged").clientWidth - 40;

function showVerdicts() {
    const onCount = (line, counts) => {
        session.counted[counts ? "add" : "delete"](`${line.service} ${line.step} ${line.authenticator}`);
        at("verdicts").focus();
        show();
    };
    const each = judgements.map((judged) => verdictArticle(judged, { room: room(), onCount })), stray = strayArticles(session.strayDocuments(judgements));
    const articles = [...conflicts.map(conflictArticle), ...uncomparedArticles(session.uncompared(judgements)), ...each, ...stray];
    const lacks = session.files.length ? "add a proof to what you were sent" : "add what you were sent, and the lines that you got another way";
    at("judged").replaceChildren(...(articles.length ? articles : [element("p", { className: "none" }, `None yet: ${lacks}.`)]));
}

/** Tells of lines that contradict each other; what is told already stays, so that it isn't told again and who chooses there stays there. */
function showAlerts() {
    const alerts = contradictionAlerts(session, (key, authenticator) => {
        session.chosen[authenticator ? "set" : "delete"](key, authenticator);
        show();
    });
    const textOfAll = (elements) => elements.map((it) => it.textContent).join("\n");
    const isTold = alerted === session && textOfAll(alerts) === textOfAll([...at("alerts").children]);
    if (!isTold) at("alerts").replaceChildren(...alerts);
    alerted = session;
}

/** Judges all anew, and shows everything; what was begun before and isn't done is left. */
async function show() {
    const mine = ++round, held = session, found = [], subjects = held.subjects;
    showFiles();
    showAlerts();
    for (const [number, subject] of subjects.entries()) {
        if (number) {
            at("progress").textContent = `Judging ${number + 1} of ${subjects.length}: ${subject.files[0].name}`;
            await settled();
        }
        if (mine !== round) return;
        found.push(held.judge(timeweave, subject));
    }
    judgements = found;
    conflicts = held.conflicts(timeweave, found);
    at("progress").textContent = "";
    showVerdicts();
    at("again").replaceChildren(...(found.length ? paperParts(found, new Date()) : []));
    performance.mark("judged");
    at("summary").textContent = summaryWords(found, conflicts, held.uncompared(found), held.strayDocuments(found));
    digestAll(held.files);
}

// ---- taking files

/** Only one lot of files is taken at a time, in the order in which they came. */
let taking = Promise.resolve();

function take(files, place) {
    const list = [...files];
    taking = taking.then(() => takeAll(list, place)).then(show, (fault) => { at("progress").textContent = String(fault); });
    return taking;
}

async function takeAll(files, place) {
    session = own;
    const problems = [];
    for (const [number, file] of files.entries()) {
        at("progress").textContent = `Reading ${number + 1} of ${files.length}: ${file.name}`;
        await settled();
        try {
            const taken = await takeFile(file, file.name, place);
            if (!own.add(taken)) problems.push(`${file.name} is there already.`);
            else if (place === DOCUMENT) await digestDocument(taken);
        } catch {
            problems.push(`${file.name} can't be read: it is a folder, or it was moved.`);
        }
    }
    at("problems")?.remove();
    if (problems.length) at("progress").after(element("p", { id: "problems", className: "problem screen" }, problems.slice(0, 5).join(" ")));
}

function takeTyped() {
    const text = fieldAt("typed").value, source = fieldAt("typed-from").value.trim(), bytes = new TextEncoder().encode(text);
    if (!text.trim()) return at("typed").focus();
    const from = source ? `typed, ${source}` : "typed";
    const file = readFile({ name: "typed lines", size: bytes.length, blob: new Blob([bytes]), bytes, place: OWN, source: from });
    session = own;
    own.add(file);
    if (file.lines.length && !file.bad.length) fieldAt("typed").value = "";
    show();
}

function watchField(id, place) {
    const field = at(id), chosen = fieldAt(`${id}-files`);
    chosen.addEventListener("change", () => {
        take(chosen.files, place);
        chosen.value = "";
    });
    field.addEventListener("dragover", () => field.classList.add("over"));
    for (const name of ["dragleave", "drop"]) field.addEventListener(name, () => field.classList.remove("over"));
    field.addEventListener("drop", (event) => take(event.dataTransfer.files, place));
}

/** A file that is dropped beside the fields isn't opened in place of the page. */
function watchDocument() {
    document.addEventListener("dragover", (event) => event.preventDefault());
    document.addEventListener("drop", (event) => {
        event.preventDefault();
        if (/** @type {Element} */ (event.target).closest?.(".field")) return;
        at("progress").textContent = "Drop the files on one of the three fields: what you were sent, lines that you got another way, or the document itself.";
    });
    let width = room();
    addEventListener("resize", () => {
        if (room() === width) return;
        width = room();
        showVerdicts();
    });
}

// ---- examples

function exampleSession({ title, files }) {
    const made = Object.assign(new Session(), { title });
    for (const { name, place, base64 } of files) {
        const bytes = bytesOfBase64(base64);
        made.add(readFile({ name, size: bytes.length, blob: new Blob([bytes]), bytes, place }));
    }
    return made;
}

function offerExamples() {
    for (const example of JSON.parse(at("example-files").textContent)) {
        at("examples").append(element("button", { type: "button", onclick: () => { session = exampleSession(example); show(); } }, example.title));
    }
}

// ---- begin

async function begin() {
    const module = bytesOfBase64(at("module").textContent);
    timeweave = new Timeweave(await WebAssembly.compile(module));
    at("version").textContent = timeweave.version();
    at("not-shown").replaceChildren(...boldItems(["not who", "not the day", "not of broken rules", "not what else"]));
    at("assumed").replaceChildren(...boldItems(["assume lines", "assume rules", "assume digests"]));
    at("theorem").textContent = `${fill("theorem")}`;
    watchField("sent", SENT);
    watchField("own", OWN);
    watchField("document", DOCUMENT);
    watchDocument();
    offerExamples();
    at("add-typed").addEventListener("click", takeTyped);
    at("leave-example").addEventListener("click", () => { session = own; show(); });
    at("clear").addEventListener("click", () => { own.files = []; own.forget(); show(); });
    at("print").addEventListener("click", () => print());
    document.documentElement.dataset.ready = "yes";
    performance.mark("ready");
    at("module-sum").textContent = (await digestOfBlob(new Blob([module]))).digest;
}

begin().catch((fault) => {
    const said = `This browser can't run the verifier (${fault.message}). Use a newer one, or the command \`timeweave verify\`.`;
    at("judged").replaceChildren(element("p", { className: "alert" }, said));
});
