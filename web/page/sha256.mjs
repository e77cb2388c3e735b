/** SHA-256 (FIPS 180-4) of what is given piece by piece: browsers compute it only of what is in memory as a whole, and only over https or from disk. */

const isPrime = (number) => [...Array(number).keys()].slice(2).every((it) => number % it);
const PRIMES = [...Array(312).keys()].slice(2).filter(isPrime);
/** The first 32 bits behind the point of a number. */
const behindThePoint = (number) => Math.floor((number - Math.floor(number)) * 2 ** 32);
const ROUNDS = Uint32Array.from(PRIMES, (prime) => behindThePoint(Math.cbrt(prime)));
const BEGIN = PRIMES.slice(0, 8).map((prime) => behindThePoint(Math.sqrt(prime)));
const BLOCK = 64;

const turned = (word, by) => (word >>> by) | (word << (32 - by));

/** A sum that goes on. */
export class Sha256 {
    constructor() {
        this.state = Uint32Array.from(BEGIN);
        this.words = new Uint32Array(64);
        this.rest = new Uint8Array(0);
        this.count = 0;
    }

    /** Adds bytes. */
    add(bytes) {
        this.count += bytes.length;
        const all = this.rest.length ? Uint8Array.from([...this.rest, ...bytes.subarray(0, BLOCK - this.rest.length)]) : bytes;
        const isWhole = all === bytes || all.length === BLOCK, left = all === bytes ? bytes : bytes.subarray(BLOCK - this.rest.length);
        if (!isWhole) {
            this.rest = all;
            return;
        }
        if (all !== bytes) this.block(all, 0);
        const end = left.length - (left.length % BLOCK);
        for (let at = 0; at < end; at += BLOCK) this.block(left, at);
        this.rest = left.slice(end);
    }

    /** The digest of all that was added. */
    end() {
        const bits = BigInt(this.count) * 8n, zeros = (2 * BLOCK - 9 - this.rest.length) % BLOCK, tail = new Uint8Array(1 + zeros + 8);
        tail[0] = 0x80;
        new DataView(tail.buffer).setBigUint64(1 + zeros, bits);
        this.add(tail);
        const found = new Uint8Array(32), view = new DataView(found.buffer);
        this.state.forEach((word, at) => view.setUint32(4 * at, word));
        return found;
    }

    block(bytes, from) {
        const w = this.words, view = new DataView(bytes.buffer, bytes.byteOffset + from, BLOCK);
        for (let at = 0; at < 16; at++) w[at] = view.getUint32(4 * at);
        for (let at = 16; at < 64; at++) {
            const low = turned(w[at - 15], 7) ^ turned(w[at - 15], 18) ^ (w[at - 15] >>> 3), high = turned(w[at - 2], 17) ^ turned(w[at - 2], 19) ^ (w[at - 2] >>> 10);
            w[at] = w[at - 16] + low + w[at - 7] + high;
        }
        let [a, b, c, d, e, f, g, h] = this.state;
        for (let at = 0; at < 64; at++) {
            const one = (h + (turned(e, 6) ^ turned(e, 11) ^ turned(e, 25)) + ((e & f) ^ (~e & g)) + ROUNDS[at] + w[at]) | 0;
            const two = ((turned(a, 2) ^ turned(a, 13) ^ turned(a, 22)) + ((a & b) ^ (a & c) ^ (b & c))) | 0;
            h = g;
            g = f;
            f = e;
            e = (d + one) | 0;
            d = c;
            c = b;
            b = a;
            a = (one + two) | 0;
        }
        [a, b, c, d, e, f, g, h].forEach((word, at) => { this.state[at] += word; });
    }
}
