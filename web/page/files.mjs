/** What a file is, by its first bytes. */

/**
 * The files of Timeweave, and zip files, as bundles are: the letters that they begin with, the byte behind them where it tells a kind, and what this page says of one that it
 * doesn't judge.
 */
const KINDS = [
    { kind: "map", letters: "TWP1", byte: 6 },
    { kind: "map", letters: "TWP1", byte: 7 },
    { kind: "proof", letters: "TWP1" },
    { kind: "evidence", letters: "TWV1" },
    { kind: "message", letters: "TWT1", says: "This is a message to another service, and no proof: `timeweave receive` and `offer` take it." },
    { kind: "receipt", letters: "TWR1", says: "This is a receipt, which shows nothing by itself: `timeweave prove DIR thread` writes the proof." },
    { kind: "events", letters: "TWE1", says: "This is a file of events that are to be recorded, and no proof: `timeweave append` takes it." },
    { kind: "history", letters: "TWH1" },
    { kind: "bundle", letters: "PK\u0003\u0004" },
];

const lettersOf = (bytes) => String.fromCharCode(...bytes.subarray(0, 4));

/** The kind of a file of Timeweave by its first bytes, as {kind, says}; undefined for any other file. */
export function kindOf(bytes) {
    return KINDS.find(({ letters, byte }) => lettersOf(bytes) === letters && (byte === undefined || bytes[4] === byte));
}

/**
 * Of which step of which service and of which peer a map file says that it is, as {isLow, service, step, peer}: its first fields, by which a low and a
 * high one are found that belong together. The verifier reads the rest.
 */
export function mapOf(bytes) {
    const isLow = bytes[4] === 6, view = new DataView(bytes.buffer, bytes.byteOffset, bytes.byteLength);
    const name = (at) => String.fromCharCode(...bytes.subarray(at, at + 16)).replace(/\0+$/, "");
    const number = (at) => (at + 8 <= bytes.length ? Number(view.getBigUint64(at)) : 0);
    return isLow ? { isLow, service: name(5), step: number(21), peer: name(29) } : { isLow, peer: name(5), service: name(29), step: number(45) };
}

/** Whether a file is a proof of a line under a later one: such a one may join the lines of two files that contradict each other. */
export const isLink = (bytes) => lettersOf(bytes) === "TWP1" && bytes[4] === 5;

/** A number of bytes for people. */
export function sizeText(size) {
    if (size < 10_000) return `${size.toLocaleString("en")} byte${size === 1 ? "" : "s"}`;
    return size < 10_000_000 ? `${Math.round(size / 1000).toLocaleString("en")} KB` : `${Math.round(size / 1_000_000).toLocaleString("en")} MB`;
}
