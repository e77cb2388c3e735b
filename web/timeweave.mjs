/**
 * Timeweave's verifier for browsers, Node and Deno: judges proofs, maps and evidence under anchors that you hold, by the proved library, compiled for WebAssembly.
 *
 *     import { load } from "./timeweave.mjs";
 *
 *     const timeweave = await load();                    // timeweave.wasm, which `make page` puts beside this file
 *     const report = timeweave.strict(proof, anchors);   // bytes of a proof, lines of an anchors file; throws Rejected
 *     console.log(report.kind, report.events[0].data);
 *
 * What the library answers is proved. This file hands bytes to it and takes its text apart; it is tested alone, and judges nothing.
 */

/** What a call of the library answers: the exit statuses of the program. */
export const ACCEPTED = 0;
export const REJECTED = 1;
export const NO_MEMORY = 6;
export const UNREADABLE = 9;
export const BAD_ANCHORS = UNREADABLE;

/** The most bytes that any proof, and any anchors file with a good line at its end, has: what stands behind them changes no verdict. */
export const MOST_BYTES = 5_242_880;

/** How much room is given to a text at first; a longer one is asked for again. */
const FIRST_ROOM = 1024;

/** The file isn't accepted: the number, the name and the fields of the reason, as 6, "BadEvent", ["0"]. Map files that don't fit have a reason without a number. */
export class Rejected extends Error {
    constructor(number, name, fields) {
        super([...(number === undefined ? [] : [number]), name, ...fields].join(" "));
        this.name = "Rejected";
        this.number = number;
        this.reason = name;
        this.fields = fields;
    }
}

/** The anchors have a bad line: this one, counted from 1, is the first. `file` says which anchors, where there are several. */
export class BadAnchors extends Error {
    constructor(line, file = "anchors") {
        super(file === "anchors" ? `line ${line}` : `${file} line ${line}`);
        this.name = "BadAnchors";
        this.line = line;
        this.file = file;
    }
}

/** The bytes are no map file of their kind, `low` or `high`: at this place, counted from 0, stands the first byte at which none goes on. */
export class BadFile extends Error {
    constructor(file, place) {
        super(`${file} byte ${place}`);
        this.name = "BadFile";
        this.file = file;
        this.place = place;
    }
}

/** The module had no memory for the proof: nothing was judged. */
export class NoMemory extends Error {
    constructor() {
        super("no memory");
        this.name = "NoMemory";
    }
}

/** Loads the verifier: from the bytes of timeweave.wasm, a compiled module, a response, or a URL; without any from beside this file. */
export async function load(source = new URL("timeweave.wasm", import.meta.url)) {
    return new Timeweave(await compiled(await source));
}

async function compiled(source) {
    if (source instanceof WebAssembly.Module) return source;
    if (source instanceof URL && source.protocol === "file:" && !globalThis.document) source = await (await import("node:fs/promises")).readFile(source);
    if (source instanceof URL || typeof source === "string") source = await fetch(source);
    if (typeof Response === "function" && source instanceof Response) {
        if (!source.ok) throw new Error(`${source.url}: status ${source.status}`);
        source = await source.arrayBuffer();
    }
    return WebAssembly.compile(source);
}

const bytesOf = (given) => (typeof given === "string" ? new TextEncoder().encode(given) : given);

/** The verifier in a module's memory. It keeps nothing from call to call. */
export class Timeweave {
    #module;
    #own;

    constructor(module) {
        this.#module = module;
        this.#renew();
    }

    /** After a trap the module's memory may be left in any state: so it is never called again. */
    #renew() {
        this.#own = new WebAssembly.Instance(this.#module).exports;
    }

    /** Calls a function over the spans of memory that `work` asks for; all memory is given back, and a module that trapped is left. */
    #over(sizes, work) {
        const { malloc, free } = this.#own, taken = [];
        try {
            for (const size of sizes) {
                taken.push(malloc(BigInt(size)));
                if (!taken.at(-1)) return { status: NO_MEMORY, text: "no memory\n", size: 0 };
            }
            return work(taken, new Uint8Array(this.#own.memory.buffer));
        } catch (fault) {
            taken.length = 0;
            this.#renew();
            throw fault;
        } finally {
            for (const block of taken.reverse()) free(block);
        }
    }

    #askInto(name, files, room) {
        return this.#over([...files.map((file) => file.length), room, 8], (taken, memory) => {
            const [outAt, sizeAt] = taken.slice(files.length);
            files.forEach((file, at) => memory.set(file, Number(taken[at])));
            const status = this.#own[name](...files.flatMap((file, at) => [taken[at], BigInt(file.length)]), outAt, BigInt(room), sizeAt);
            // (the call may have made the memory larger, and the old view is of none then)
            const now = this.#own.memory.buffer;
            const size = Number(new DataView(now).getBigUint64(Number(sizeAt), true));
            return { status, size, text: new TextDecoder().decode(new Uint8Array(now, Number(outAt), Math.min(size, room))) };
        });
    }

    /** Whether the module has the library's function of this name: one that was built earlier may lack it. */
    has(name) {
        return typeof this.#own[name] === "function";
    }

    /** The status and the text that the library's function of this name answers to the bytes of files. */
    ask(name, ...files) {
        const given = files.map(bytesOf);
        for (let room = FIRST_ROOM; ; ) {
            const { status, text, size } = this.#askInto(name, given, room);
            if (size <= room) return { status, text };
            room = size;
        }
    }

    /** The status and the text of the program's `verify`, or of its `strict`, for the bytes of a proof and of an anchors file. */
    judge(proof, anchors, isStrict = false) {
        return this.ask(isStrict ? "timeweave_strict" : "timeweave_verify", proof, anchors);
    }

    /** The report of a proof that is accepted; threads that it carries, which no anchor binds, are allowed, and reported. */
    verify(proof, anchors) {
        return reportOf(this.judge(proof, anchors));
    }

    /** The same in the strict form: a proof that carries threads is rejected. */
    strict(proof, anchors) {
        return reportOf(this.judge(proof, anchors, true));
    }

    /** The bounds that a low and a high map file show. */
    checkmap(low, high, anchors) {
        return readBounds(acceptedText(this.ask("timeweave_checkmap", low, high, anchors)));
    }

    /** What the evidence of a fork shows. */
    checkfork(evidence, anchors) {
        return readFork(acceptedText(this.ask("timeweave_checkfork", evidence, anchors)));
    }

    /** The rule that two files show broken, each accepted under its own anchors; the link may have no bytes. */
    contradict(first, firstAnchors, second, secondAnchors, link = new Uint8Array()) {
        return readContradiction(acceptedText(this.ask("timeweave_contradict", first, firstAnchors, second, secondAnchors, link)));
    }

    /** The rule that the receiver of both threads of evidence broke; the link may have no bytes. */
    receiver(evidence, anchors, link = new Uint8Array()) {
        return readContradiction(acceptedText(this.ask("timeweave_receiver", evidence, anchors, link)));
    }

    /** The version of the library, as "1.0.0". */
    version() {
        return this.#over([64], ([at]) => {
            const size = Number(this.#own.timeweave_version(at, 64n));
            return new TextDecoder().decode(new Uint8Array(this.#own.memory.buffer, Number(at), size));
        });
    }
}

/** The text of what is accepted, or what is thrown for another status and its text. */
function acceptedText({ status, text }) {
    const words = text.trimEnd().split(" ");
    if (status === ACCEPTED) return text;
    if (status === REJECTED && /^\d+$/.test(words[1])) throw new Rejected(Number(words[1]), words[2], words.slice(3));
    if (status === REJECTED) throw new Rejected(undefined, words[1], words.slice(2));
    if (status === UNREADABLE && words[2] === "line") throw new BadAnchors(Number(words[3]), words[1]);
    if (status === UNREADABLE) throw new BadFile(words[1], Number(words[3]));
    throw new NoMemory();
}

/** The report of a status and a text that were told of a proof, or what is thrown for them. */
export function reportOf(answer) {
    return readReport(acceptedText(answer));
}

/** The bytes of hexadecimal digits; `-` stands for none. */
const unhexed = (word) => Uint8Array.from(word === "-" ? [] : word.match(/../g), (/** @type {string} */ pair) => parseInt(pair, 16));

/** How each line of a report is read, by its first word: what it adds to the report. */
const LINES = {
    event: (report, service, step, index, data) => report.events.push({ service, step: Number(step), index: Number(index), data: unhexed(data) }),
    time: (report, service, step, time) => { report.events.at(-1).time = Number(time); },
    hop: (report, service, step, by, archived) => report.hops.push({ service, step: Number(step), by, archived: Number(archived) }),
    carried: (report, service, step, authenticator) => report.carried.push({ service, step: Number(step), authenticator }),
    thread: (report, service, step, of, at, authenticator, archived) => {
        report.received = { service, step: Number(step), thread: { service: of, step: Number(at), authenticator }, archived: Number(archived) };
    },
    absent: (report, service, step, of, at) => { report.absent = { service, step: Number(step), ofService: of, ofStep: Number(at) }; },
    link: (report, service, step, top, authenticator) => { report.link = { thread: { service, step: Number(step), authenticator }, top: Number(top) }; },
};

/** The report of an accepted proof, of its text. */
export function readReport(text) {
    const [head, ...lines] = text.trimEnd().split("\n");
    const report = { kind: head.replace(/^accepted /, ""), text, events: [], hops: [], carried: [] };
    for (const line of lines) {
        const [word, ...words] = line.split(" ");
        if (!Object.hasOwn(LINES, word)) throw new Error(`no line of a report: ${line}`);
        LINES[word](report, ...words);
    }
    return report;
}

/** The words of a line behind its head, so many. */
function wordsOf(line, head, count) {
    const [word, ...words] = line?.split(" ") ?? [];
    if (word !== head || words.length !== count) throw new Error(`no line of a report: ${line}`);
    return words;
}

/** The bounds of accepted map files, of their text. */
export function readBounds(text) {
    const [, low, high, upto] = text.split("\n"), bound = wordsOf(high, "high", 1)[0];
    return { low: Number(wordsOf(low, "low", 1)[0]), high: bound === "none" ? undefined : Number(bound), upto: Number(wordsOf(upto, "upto", 1)[0]), text };
}

/** What accepted evidence shows, of its text. */
export function readFork(text) {
    const accused = (line, head) => {
        const [service, step, authenticator, by, archived] = wordsOf(line, head, 5);
        return { thread: { service, step: Number(step), authenticator }, by, archived: Number(archived) };
    };
    const [, first, second] = text.split("\n");
    return { first: accused(first, "first"), second: accused(second, "second"), text };
}

/** The rule that two files show broken, of their text; of rule 1 alone the thread that was received and the one that wasn't. */
export function readContradiction(text) {
    const [head, ...lines] = text.trimEnd().split("\n"), told = { events: [] };
    const [rule, name] = lines[0]?.startsWith("rule ") ? wordsOf(lines.shift(), "rule", 2) : ["1", "Denied"];
    if (rule === "1") {
        LINES.thread(told, ...wordsOf(lines[0], "thread", 6));
        LINES.absent(told, ...wordsOf(lines[1], "absent", 4));
    }
    if (!lines.length) throw new Error(`no line of a report: ${text}`);
    return { isJoined: head === "accepted broken-rule", rule: Number(rule), name, service: lines[0].split(" ")[1], lines, ...told.received && { received: told.received, absent: told.absent }, text };
}
