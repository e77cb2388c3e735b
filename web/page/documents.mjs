/** Whether a document is the file of an event that was recorded: of the entry that a log of files makes of it, of its digest, or of itself. weft decides by the same rules (deciding/matching.py). */

import { Sha256 } from "./sha256.mjs";

const ENTRY = /^\\?([0-9a-f]{64}) {2}([^]*)$/;
const ESCAPES = { "\\\\": "\\", "\\n": "\n", "\\r": "\r" };

const hexOfBytes = (bytes) => Array.from(bytes, (it) => it.toString(16).padStart(2, "0")).join("");
const latin = (bytes) => Array.from(bytes, (byte) => String.fromCharCode(byte)).join("");
const asBytes = (/** @type {string} */ letters) => Uint8Array.from(letters, (letter) => letter.charCodeAt(0));

/**
 * What an event tells of a file, as sha256sum writes it: {digest, path, name}, the path as bytes, the name, without the folders above it, as a text of a letter for
 * each byte; null of another event.
 */
export function readRecorded(event) {
    const [whole, digest, given] = ENTRY.exec(latin(event)) ?? [];
    if (!digest) return null;
    const path = whole.startsWith("\\") ? given.replace(/\\[\\nr]/g, (letters) => ESCAPES[letters]) : given;
    return { digest, path: asBytes(path), name: path === UNNAMED ? NO_NAME : path.slice(path.lastIndexOf("/") + 1) };
}

/** Whether an event tells of a file of this name. */
export const isNamed = (event, name) => readRecorded(event)?.name === latin(new TextEncoder().encode(name));

/** What stands in the place of a name where a digest was recorded alone. */
const UNNAMED = "-", NO_NAME = null;

/** The digest of an event: a file that is short enough is recorded as it is. */
export function wholeDigest(event) {
    const sum = new Sha256();
    sum.add(event);
    return hexOfBytes(sum.end());
}

/**
 * What a file of this digest and name is to the events of a proof, of which there is what each tells of a file, and the digest of each as a whole: {match, places},
 * `same`, `renamed`, `other` or `no entry`, and of which of them it is, from 0 on.
 */
export function matchFile(events, digest, name, whole = []) {
    const own = latin(new TextEncoder().encode(name)), at = (isOne) => [...events.keys()].filter(isOne);
    const same = at((place) => events[place]?.digest === digest), named = same.filter((place) => [own, NO_NAME].includes(events[place].name));
    const found = at((place) => named.includes(place) || (whole[place] === digest && !events[place]));
    if (found.length) return { match: "same", places: found };
    if (same.length) return { match: "renamed", places: same };
    return { match: events.some((it) => it) ? "other" : "no entry", places: [] };
}

// ---- the digest of a document of any size

/** What the browser takes in one piece; a longer file is read piece by piece, by a script of the page's own. */
export const MOST_AT_ONCE = 2 ** 29;
const PIECE = 2 ** 22;

/** The SHA-256 digest of a blob, and who computed it: {digest, by}. `onPiece` is given how many bytes were read. Fails where the blob can't be read. */
export async function digestOfBlob(blob, onPiece = (_) => {}, subtle = globalThis.crypto?.subtle, most = MOST_AT_ONCE) {
    if (subtle && blob.size <= most) return { digest: hexOfBytes(new Uint8Array(await subtle.digest("SHA-256", await blob.arrayBuffer()))), by: "the browser" };
    const sum = new Sha256();
    for (let at = 0; at < blob.size; at += PIECE) {
        sum.add(new Uint8Array(await blob.slice(at, at + PIECE).arrayBuffer()));
        await onPiece(Math.min(at + PIECE, blob.size));
    }
    return { digest: hexOfBytes(sum.end()), by: "this page's script" };
}
