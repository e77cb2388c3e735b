/** What a call of the library answers: the exit statuses of the program. */
export declare const ACCEPTED: 0;
export declare const REJECTED: 1;
export declare const NO_MEMORY: 6;
export declare const UNREADABLE: 9;
export declare const BAD_ANCHORS: 9;

/** What `judge` and `ask` answer: 0 accepted, 1 rejected, 6 no memory, 9 a bad line in the anchors, or a map file that is none. */
export type Status = typeof ACCEPTED | typeof REJECTED | typeof NO_MEMORY | typeof UNREADABLE;

/** The most bytes that any proof, and any anchors file with a good line at its end, has: what stands behind them changes no verdict. */
export declare const MOST_BYTES: 5_242_880;

/** The status and the text that the program ends with and writes. */
export interface Answer {
    status: Status;
    /** ASCII; its lines end in a line feed. */
    text: string;
}

/** A service, a step of it, and the authenticator there, as 64 hexadecimal digits in small letters. */
export interface Thread {
    service: string;
    /** From 0 to 1,099,511,627,775. */
    step: number;
    authenticator: string;
}

/** An event: its service, its step, its index there, its bytes, and the time that the step's maker claims, if there is one. */
export interface Event {
    service: string;
    step: number;
    /** From 0 to 1,023. */
    index: number;
    /** At most 1,024 bytes. */
    data: Uint8Array;
    /** Seconds, from 0 to 1,099,511,627,775; left out where the step claims no time. */
    time?: number;
}

/** The step of a service whose thread another service received, and the step of that one which received it. */
export interface Hop {
    service: string;
    step: number;
    by: string;
    archived: number;
}

/** The service's archive has the thread at this step; it received it at the step `archived`. */
export interface Received {
    service: string;
    step: number;
    thread: Thread;
    archived: number;
}

/** The service received no thread of that service and step up to this step of its own. */
export interface Absent {
    service: string;
    step: number;
    ofService: string;
    ofStep: number;
}

/** The service's authenticator at a step, linked from a step above, the top. */
export interface Link {
    thread: Thread;
    top: number;
}

/**
 * What an accepted proof claims. The kind is `exists` (one event), `precedes` (the first event precedes the second, by the hops), `thread`
 * (received), `absent` or `link`. Threads that are carried are bound by no anchor: the claim rests on them too.
 */
export interface Report {
    kind: "exists" | "precedes" | "thread" | "absent" | "link";
    /** The text that the report was read from. */
    text: string;
    events: Event[];
    /** From the first event's service on; at most 64. */
    hops: Hop[];
    carried: Thread[];
    received?: Received;
    absent?: Absent;
    link?: Link;
}

/** What two accepted map files show of a step of a service and of a peer. */
export interface Bounds {
    /** The greatest step of the peer that the service had received before its step, or 0. */
    low: number;
    /** The least step of the peer, up to its step `upto`, that received the service's step or a later one; undefined where none did. */
    high: number | undefined;
    upto: number;
    text: string;
}

/** A thread of evidence, the service that received it, and the step that did. */
export interface Accused {
    thread: Thread;
    by: string;
    archived: number;
}

/** What accepted evidence of a fork shows: two threads of one service, both received, which no sound history both has. */
export interface Fork {
    first: Accused;
    second: Accused;
    text: string;
}

/**
 * The rule of histories that two accepted files show broken: its number, its name, the service whose rule it is, and the lines that tell what the files say. Where
 * `isJoined`, the service broke it: no sound history has the later of its lines. Else it broke it or showed two histories: no sound history has both lines. Rule 1,
 * `Denied`, alone has `received` and `absent`: a thread was received, and none of its service and step was received up to a step that isn't before. A rule
 * whose number isn't known to you is broken too.
 */
export interface Contradiction {
    isJoined: boolean;
    rule: number;
    name: string;
    service: string;
    lines: string[];
    received?: Received;
    absent?: Absent;
    text: string;
}

/**
 * The file isn't accepted: the number, the name and the fields of the reason, as 6, "BadEvent", ["0"]. Map files that don't fit each other have a reason
 * without a number, undefined, "Gap", ["2"].
 */
export declare class Rejected extends Error {
    readonly number: number | undefined;
    readonly reason: string;
    readonly fields: string[];
    constructor(number: number | undefined, name: string, fields: string[]);
}

/** The anchors have a bad line: this one, counted from 1, is the first. `file` says which anchors, where there are several. */
export declare class BadAnchors extends Error {
    readonly line: number;
    readonly file: string;
    constructor(line: number, file?: string);
}

/** The bytes are no map file of their kind, `low` or `high`: at this place, counted from 0, stands the first byte at which none goes on. */
export declare class BadFile extends Error {
    readonly file: string;
    readonly place: number;
    constructor(file: string, place: number);
}

/** The module had no memory for the proof: nothing was judged. */
export declare class NoMemory extends Error {}

/** The verifier in a module's memory. It keeps nothing from call to call. */
export declare class Timeweave {
    constructor(module: WebAssembly.Module);

    /**
     * The status and the text of the program's `verify`, or of its `strict`, for the bytes of a proof and of an anchors file. Where the module
     * traps, WebAssembly.RuntimeError is thrown, and later calls go to a new instance of it.
     */
    judge(proof: Uint8Array, anchors: Uint8Array | string, isStrict?: boolean): Answer;

    /**
     * The report of a proof that is accepted under the lines of an anchors file (`NAME STEP HEX`, at most 64, one a service); threads that it
     * carries, which no anchor binds, are allowed, and reported. Throws Rejected, BadAnchors or NoMemory.
     */
    verify(proof: Uint8Array, anchors: Uint8Array | string): Report;

    /** The same in the strict form: a proof that carries threads is rejected. */
    strict(proof: Uint8Array, anchors: Uint8Array | string): Report;

    /** The bounds that a low and a high map file show, which are accepted under the lines. Throws Rejected, BadFile, BadAnchors or NoMemory. */
    checkmap(low: Uint8Array, high: Uint8Array, anchors: Uint8Array | string): Bounds;

    /** What the evidence of a fork shows that is accepted under the lines. Throws Rejected, BadAnchors or NoMemory. */
    checkfork(evidence: Uint8Array, anchors: Uint8Array | string): Fork;

    /**
     * The rule that two files show broken, each accepted under its own lines: proofs that a thread was received or that none was, or map files.
     * The link is a proof of a step's authenticator, which joins the earlier line of the service to the later one; none is needed where both files are
     * accepted under one line. Throws Rejected, with the reason NoConflict where they show none broken, BadAnchors or NoMemory.
     */
    contradict(first: Uint8Array, firstAnchors: Uint8Array | string, second: Uint8Array, secondAnchors: Uint8Array | string, link?: Uint8Array): Contradiction;

    /**
     * The rule that the receiver of both threads of evidence of a fork broke, whether or not they show a fork. Throws Rejected, with the reason NoConflict where two
     * services received them or the one broke no rule by it, BadAnchors or NoMemory.
     */
    receiver(evidence: Uint8Array, anchors: Uint8Array | string, link?: Uint8Array): Contradiction;

    /** Whether the module has the library's function of this name: one that was built earlier may lack it. */
    has(name: string): boolean;

    /** The status and the text that the library's function of this name, as "timeweave_checkmap", answers to the bytes of its files. */
    ask(name: string, ...files: (Uint8Array | string)[]): Answer;

    /** The version of the library, as "1.0.0". */
    version(): string;
}

/** Loads the verifier: from the bytes of timeweave.wasm, a compiled module, a response, or a URL; without any from beside this file. */
export declare function load(
    source?: BufferSource | WebAssembly.Module | Response | URL | string | Promise<BufferSource | WebAssembly.Module | Response>,
): Promise<Timeweave>;

/** The report of a status and a text, or what is thrown for them: Rejected, BadAnchors or NoMemory. */
export declare function reportOf(answer: Answer): Report;

/** The report of an accepted proof, of its text. Throws Error where the text is none. */
export declare function readReport(text: string): Report;

/** The bounds of accepted map files, of their text. Throws Error where the text is none. */
export declare function readBounds(text: string): Bounds;

/** What accepted evidence shows, of its text. Throws Error where the text is none. */
export declare function readFork(text: string): Fork;

/** The rule that two files show broken, of their text. Throws Error where the text is none. */
export declare function readContradiction(text: string): Contradiction;
