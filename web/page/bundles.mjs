/**
 * Bundles: which bytes are one, and which of its lines count. By the rules of weft's deciding/bundles.py, which has their reasons: a zip file with its files one behind the
 * other, as they are, and its directory behind them, each of one of a few names, once, with one fixed time, and nothing else anywhere. Both read one file of vectors.
 */

/** The most bytes that a bundle has, and the most lines, signatures and stamps of it that are read. */
export const MOST_BUNDLE = 2 ** 26, MOST_NUMBER = 64;
const ENTRY_NAME = /^(?:README\.txt|proof(?:-2)?|lines|held|keys|record(?:-2)?(?:\.name)?|(?:signed|stamped|stamp)-(?:[1-9]|[1-5][0-9]|6[0-4])|signed-(?:[1-9]|[1-5][0-9]|6[0-4])\.sig)$/;
const NEEDED = ["README.txt", "proof", "lines"], PROOFS = ["proof", "proof-2"], LINE_TEXTS = ["lines", "held"], RECORDS = ["record", "record-2"];
const LOCAL_SIGN = 0x04034b50, CENTRAL_SIGN = 0x02014b50, END_SIGN = 0x06054b50;
const LOCAL_SIZE = 30, CENTRAL_SIZE = 46, END_SIZE = 22;
const ZIP_VERSION = 10, MADE_BY = 0x30a, DAY = 0x21, MODE = 0o100644 * 2 ** 16;

const CRC_TABLE = Uint32Array.from({ length: 256 }, (_, byte) => {
    let rest = byte;
    for (let bit = 0; bit < 8; bit++) rest = rest & 1 ? (rest >>> 1) ^ 0xedb88320 : rest >>> 1;
    return rest >>> 0;
});

/**
 * The check of bytes that zip files have.
 * @param {Uint8Array} bytes
 */
function crcOf(bytes) {
    let rest = 0xffffffff;
    for (let at = 0; at < bytes.length; at++) rest = CRC_TABLE[(rest ^ bytes[at]) & 255] ^ (rest >>> 8);
    return (rest ^ 0xffffffff) >>> 0;
}

/**
 * Numbers of so many bytes each, the lowest byte first, and letters behind them.
 * @param {number[][]} fields
 * @param {Uint8Array} [rest]
 */
function packed(fields, rest = new Uint8Array()) {
    const front = fields.flatMap(([value, size]) => Array.from({ length: size }, (_, at) => Math.floor(value / 256 ** at) % 256));
    return Uint8Array.from([...front, ...rest]);
}

/**
 * What stands in front of a file's bytes.
 * @param {Uint8Array} name
 * @param {number} size
 * @param {number} check
 */
const localOf = (name, size, check) => packed([[LOCAL_SIGN, 4], [ZIP_VERSION, 2], [0, 2], [0, 2], [0, 2], [DAY, 2], [check, 4], [size, 4], [size, 4], [name.length, 2], [0, 2]], name);

/**
 * What the directory says of a file.
 * @param {Uint8Array} name
 * @param {number} size
 * @param {number} check
 * @param {number} at
 */
const centralOf = (name, size, check, at) => packed([
    [CENTRAL_SIGN, 4], [MADE_BY, 2], [ZIP_VERSION, 2], [0, 2], [0, 2], [0, 2], [DAY, 2], [check, 4], [size, 4], [size, 4], [name.length, 2], [0, 2], [0, 2], [0, 2], [0, 2], [MODE, 4], [at, 4],
], name);

/**
 * @param {Uint8Array} one
 * @param {Uint8Array} other
 */
const areEqual = (one, other) => one.length === other.length && one.every((byte, at) => byte === other[at]);

/** @param {Uint8Array[]} parts */
function joined(parts) {
    const whole = new Uint8Array(parts.reduce((size, part) => size + part.length, 0));
    let at = 0;
    for (const part of parts) {
        whole.set(part, at);
        at += part.length;
    }
    return whole;
}

/**
 * The order of names by their letters, which are plain ones.
 * @param {[string, Uint8Array]} one
 * @param {[string, Uint8Array]} other
 */
const byName = ([one], [other]) => (one < other ? -1 : one > other ? 1 : 0);

/**
 * The one spelling of these files, in the order of their names.
 * @param {Map<string, Uint8Array>} found
 */
export function writeBundle(found) {
    const files = [], directory = [];
    let place = 0;
    for (const [text, data] of [...found].sort(byName)) {
        const name = new TextEncoder().encode(text), check = crcOf(data), local = localOf(name, data.length, check);
        directory.push(centralOf(name, data.length, check, place));
        files.push(local, data);
        place += local.length + data.length;
    }
    const listed = joined(directory), count = directory.length;
    return joined([...files, listed, packed([[END_SIGN, 4], [0, 2], [0, 2], [count, 2], [count, 2], [listed.length, 4], [place, 4], [0, 2]])]);
}

/**
 * The files of a bundle, by their names: {files}; of other bytes {unfit}, why they are none, by weft's name of the reason. Nothing is taken of what isn't spelled as it has to
 * be; each file begins where the one before it ends, so that no bytes are taken twice.
 * @param {Uint8Array} data
 * @param {number} [size] how many bytes the whole has, of which these may be the first
 * @returns {{files?: Map<string, Uint8Array>, unfit?: string}}
 */
export function readBundle(data, size = data.length) {
    if (size > MOST_BUNDLE) return { unfit: "LONG" };
    const { entries, unfit } = readDirectory(data), found = new Map();
    if (!entries) return { unfit };
    let place = 0;
    for (const it of entries) {
        const name = String.fromCharCode(...it.name), begin = it.at + LOCAL_SIZE + it.name.length;
        if (!ENTRY_NAME.test(name)) return { unfit: "NAME" };
        if (found.has(name)) return { unfit: "TWICE" };
        if (!it.isPlain) return { unfit: "PACKED" };
        if (it.at !== place) return { unfit: "PLACE" };
        place = begin + it.size;
        found.set(name, data.subarray(begin, place));
        if (crcOf(found.get(name)) !== it.check) return { unfit: "CHANGED" };
    }
    if (!NEEDED.every((name) => found.has(name))) return { unfit: "LACKS" };
    return areEqual(writeBundle(found), data) ? { files: found } : { unfit: "PACKED" };
}

/**
 * The entries of the directory, which has to end where the end begins, and to begin behind the files: {entries}, else {unfit}.
 * @param {Uint8Array} data
 */
function readDirectory(data) {
    const view = new DataView(data.buffer, data.byteOffset, data.length), last = data.length - END_SIZE, entries = [];
    if (last < 0 || view.getUint32(last, true) !== END_SIGN) return { unfit: "END" };
    const count = view.getUint16(last + 10, true), size = view.getUint32(last + 12, true), place = view.getUint32(last + 16, true);
    if (place + size !== last) return { unfit: "PLACE" };
    for (let at = place; at < last; ) {
        const entry = readEntry(data, at);
        if (!entry || entries.length === count) return { unfit: "PLACE" };
        entries.push(entry);
        at = entry.end;
    }
    return entries.length === count ? { entries } : { unfit: "PLACE" };
}

/**
 * What the directory says of a file at a place: its name, where it ends there, its size, place and check, and whether nothing else is said of it than of each; null where no
 * entry begins.
 * @param {Uint8Array} data
 * @param {number} at
 */
function readEntry(data, at) {
    const front = joined([data.subarray(at, at + CENTRAL_SIZE), new Uint8Array(CENTRAL_SIZE)]), view = new DataView(front.buffer);
    if (view.getUint32(0, true) !== CENTRAL_SIGN) return null;
    const behind = at + CENTRAL_SIZE, nameEnd = behind + view.getUint16(28, true), end = nameEnd + view.getUint16(30, true) + view.getUint16(32, true);
    const name = data.subarray(behind, nameEnd), size = view.getUint32(24, true), check = view.getUint32(16, true), place = view.getUint32(42, true);
    return { name, size, check, at: place, end, isPlain: areEqual(data.subarray(at, end), centralOf(name, size, check, place)) };
}

// ---- what is in one, and whose its lines are

/** @typedef {{service: string, step: number, authenticator: string, number?: number}} Line */

const BUNDLED_LINE = /^([a-z0-9-]{1,16}) (0|[1-9][0-9]{0,12}) ([0-9a-fA-F]{64})$/, HIGHEST_STEP = 2 ** 40 - 1;
const MOST_NAME = 255, NOTHING = new Uint8Array();

/** @param {Uint8Array} bytes */
const utf8Of = (bytes) => new TextDecoder("utf-8", { ignoreBOM: true }).decode(bytes);

/**
 * The lines of a text of a bundle, or which of them is the first that is none: a text that has anything else has none.
 * @param {Uint8Array} bytes
 * @returns {{lines: Line[], none?: number}}
 */
export function readBundledLines(bytes) {
    const lines = [];
    for (const [at, text] of utf8Of(bytes).replace(/\n$/, "").split("\n").entries()) {
        const [, service, step, digits] = BUNDLED_LINE.exec(text.replace(/\r+$/, "")) ?? [];
        if (!service || Number(step) > HIGHEST_STEP) return { lines: [], none: at + 1 };
        lines.push({ service, step: Number(step), authenticator: digits.toLowerCase(), number: at + 1 });
    }
    return { lines };
}

/** @param {Line} line */
const textOfLine = ({ service, step, authenticator }) => `${service} ${step} ${authenticator}`;

/**
 * The lines beside which a bundle has something: a signature, or a stamp.
 * @param {Map<string, Uint8Array>} files
 * @param {Line[]} lines
 * @param {string} front
 * @param {(number: number) => string} beside
 */
function linesBesideWhich(files, lines, front, beside) {
    const numbers = Array.from({ length: MOST_NUMBER }, (_, at) => at + 1).filter((number) => files.has(`${front}-${number}`) && files.has(beside(number)));
    const texts = new Set(numbers.map((number) => utf8Of(files.get(`${front}-${number}`) ?? NOTHING)));
    return lines.filter((line) => texts.has(`${textOfLine(line)}\n`));
}

/**
 * The name of a record, as the file beside it tells it: one that isn't a path, of 1 to 255 bytes; else that in the bundle.
 * @param {string} place
 * @param {Uint8Array} [given]
 */
export function recordName(place, given = new Uint8Array()) {
    const name = utf8Of(given).replace(/\n$/, ""), size = new TextEncoder().encode(name).length;
    return size > 0 && size <= MOST_NAME && !/[/\0]/.test(name) && name !== "." && name !== ".." ? name : place;
}

/**
 * A bundle, opened: the bytes of its proof, of map files both, its records with their names, its lines, and those of them of which it has a signature or a stamp; of what can't
 * be opened the `fault`, with what is told of it.
 * @param {Uint8Array} data
 * @param {number} size
 */
export function openBundle(data, size) {
    const { files, unfit } = readBundle(data, size);
    if (!files) return { fault: "unfit", unfit };
    const proofs = PROOFS.flatMap((name) => files.get(name) ?? []), lines = new Map();
    if (!areJudgedTogether(proofs.map(mapLevel))) return { fault: "apart" };
    for (const text of LINE_TEXTS.filter((name) => files.has(name))) {
        const read = readBundledLines(files.get(text) ?? NOTHING);
        if (read.none) return { fault: "no line", text, number: read.none };
        for (const line of read.lines) if (!lines.has(textOfLine(line))) lines.set(textOfLine(line), line);
    }
    if (lines.size > MOST_NUMBER) return { fault: "many lines", count: lines.size };
    const each = [...lines.values()], records = RECORDS.filter((name) => files.has(name)).map((name) => ({ name: recordName(name, files.get(`${name}.name`)), bytes: files.get(name) }));
    const signed = linesBesideWhich(files, each, "signed", (number) => `signed-${number}.sig`), stamped = linesBesideWhich(files, each, "stamped", (number) => `stamp-${number}`);
    return { proofs, records, lines: each, signed, stamped };
}

/**
 * Whether a file is a low map file, a high one, or neither.
 * @param {Uint8Array} bytes
 */
const mapLevel = (bytes) => (String.fromCharCode(...bytes.subarray(0, 4)) === "TWP1" ? { 6: "low", 7: "high" }[bytes[4]] : undefined) ?? "none";

/**
 * A bundle has one proof, or a low map file and behind it a high one.
 * @param {string[]} levels
 */
const areJudgedTogether = (levels) => levels.length === 1 || (levels[0] === "low" && levels[1] === "high");

/**
 * What meets each line of a bundle, by the name of weft's sentence: the reader's own line of that step, another one of his, or nothing but the sender's word. A page checks
 * neither signatures nor stamps, so that here none of these meets a line.
 * @param {Line[]} lines
 * @param {Line[]} own
 */
export function meetLines(lines, own) {
    return lines.map((line) => {
        const held = own.filter(({ service, step }) => service === line.service && step === line.step);
        const isYours = held.some(({ authenticator }) => authenticator === line.authenticator);
        return { line, met: isYours ? "bundle yours" : held.length ? "bundle other" : "bundle sender" };
    });
}
