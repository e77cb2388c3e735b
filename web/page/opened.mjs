/**
 * What an accepted file shows besides what its report tells: the lines of the steps that its paths pass, of the step before each that it opens, and of what was
 * received, as its trees have it. So that each line of yours can be held against it. Only the verifier judges: it is asked for the link to your line by the file's
 * own path. What stands in the file itself, as a digest, is compared with your line.
 */

/** The kinds of files: proofs of an event, of order, of a thread, of an absence and of a link, and the two map files. */
const [EVENT, ORDER, THREAD, ABSENCE, LINK, LOW_MAP, HIGH_MAP] = [1, 2, 3, 4, 5, 6, 7];
const DIGEST = 32, NAME = 16, NUMBER = 8;
const TIMED = 0x80;

/** The greatest level of a step's links; none of step 0. */
function topLevel(step) {
    let level = 0;
    for (let rest = step; rest > 0 && rest % 2 === 0; rest /= 2) level += 1;
    return level;
}

/** How many digests stand above an event in the tree of so many. */
function depth(count, index) {
    let found = 0;
    for (let rest = count, at = index; rest > 1; found += 1) {
        const left = 2 ** Math.floor(Math.log2(rest - 1));
        [rest, at] = at < left ? [left, at] : [rest - left, at - left];
    }
    return found;
}

/** Reads the fields of a file one after another; throws RangeError where it ends before. */
class Fields {
    at = 0;
    /** The lines that stand in the file: {service, step, authenticator}, and isReceived of one that a tree alone tells. */
    told = [];
    /** The steps that its paths pass: {service, step, top, front, path}, and under which line where that is none of the anchors. */
    passed = [];

    constructor(bytes) {
        this.bytes = bytes;
    }

    take(size) {
        if (this.at + size > this.bytes.length) throw new RangeError("the file ends before");
        this.at += size;
        return this.bytes.subarray(this.at - size, this.at);
    }

    /** A number of so many bytes. */
    number = (size = NUMBER) => this.take(size).reduce((found, byte) => found * 256 + byte, 0);

    name = () => String.fromCharCode(...this.take(NAME)).replace(/\0+$/, "");

    digest = () => [...this.take(DIGEST)].map((byte) => byte.toString(16).padStart(2, "0")).join("");

    /** Notes a line that the file tells; that of step 0 follows from the name. */
    tell(service, step, authenticator, isReceived = false) {
        if (step > 0) this.told.push({ service, step, authenticator, ...(isReceived ? { isReceived } : {}) });
    }

    /** A path from the top down to a step, each step of it but the top noted with the path that leads there; it may be under a line that is no anchor. */
    path(service, top, step, under) {
        const begin = this.at;
        for (let at = top; at > step; ) {
            let level = topLevel(at);
            this.take(DIGEST * (1 + level));
            while (2 ** level > at - step) level -= 1;
            at -= 2 ** level;
            this.note(service, at, top, this.bytes.subarray(begin, this.at), under);
        }
        if (top === step) this.note(service, step, top, new Uint8Array(), under);
    }

    note(service, step, top, path, under) {
        const front = new Uint8Array(NAME + 2 * NUMBER), view = new DataView(front.buffer);
        front.set(new TextEncoder().encode(service));
        view.setBigUint64(NAME, BigInt(step));
        view.setBigUint64(NAME + NUMBER, BigInt(top));
        this.passed.push({ service, step, top, front, path, ...(under ? { under } : {}) });
    }

    /** The opening of a step; how many events it has. */
    opening(service, step) {
        this.take(2 * DIGEST);
        const isTimed = this.bytes[this.at] >= TIMED, count = this.number(4) - (isTimed ? TIMED * 2 ** 24 : 0);
        if (isTimed) this.take(NUMBER);
        this.tell(service, step - 1, this.digest());
        this.take(DIGEST * Math.max(0, topLevel(step)));
        return count;
    }

    event(count) {
        const index = this.number(4);
        this.take(this.number(4));
        this.take(DIGEST * depth(count, index));
    }

    /** An entry of an archive: whose line it is, of which step, and its authenticator. */
    entry() {
        const service = this.name(), step = this.number(), authenticator = this.digest();
        this.number();
        this.tell(service, step, authenticator, true);
        return { service, step, authenticator };
    }

    /** A tree proof, of an entry or above an empty place. */
    tree(isOfEntry) {
        const count = this.number(1);
        if (isOfEntry) this.take(2 * DIGEST);
        for (let at = 0; at < count; at += 1) {
            this.entry();
            this.take(DIGEST);
        }
    }

    /** A proof of an event, of a thread or of an absence. */
    ofStep(kind) {
        const service = this.name(), step = this.number(), top = this.number();
        this.path(service, top, step);
        const count = this.opening(service, step);
        if (kind === EVENT) return this.event(count);
        if (kind === THREAD) this.entry();
        else this.take(NAME + NUMBER);
        return this.tree(kind === THREAD);
    }

    link() {
        const service = this.name(), step = this.number(), top = this.number();
        this.tell(service, step, this.digest());
        this.path(service, top, step);
    }

    order() {
        const hops = this.number(1), service = this.name(), step = this.number(), top = this.number();
        this.path(service, top, step);
        this.event(this.opening(service, step));
        let upper = this.told.at(-1) ?? { service, step: 0 };
        if (hops) this.opening(service, step - 1);
        for (let at = 1; at <= hops; at += 1) {
            upper = this.entry();
            this.tree(true);
            const bind = this.number();
            if (bind) this.path(upper.service, bind, upper.step);
            if (at < hops) this.opening(upper.service, upper.step);
        }
        const first = this.number();
        this.path(upper.service, upper.step, first, upper);
        this.event(this.opening(upper.service, first));
    }

    low() {
        const service = this.name(), step = this.number() - 1;
        this.name();
        const top = this.number();
        if (step < 1) return;
        this.path(service, top, step);
        this.opening(service, step);
        this.tree(false);
    }

    high() {
        const peer = this.name(), top = this.number();
        this.take(NAME + NUMBER);
        this.opening(peer, top);
        this.tree(false);
    }

    all() {
        this.take(4);
        const kind = this.number(1);
        if ([EVENT, THREAD, ABSENCE].includes(kind)) this.ofStep(kind);
        else if (kind === ORDER) this.order();
        else if (kind === LINK) this.link();
        else if (kind === LOW_MAP) this.low();
        else if (kind === HIGH_MAP) this.high();
    }
}

/** What an accepted file shows: {told, passed}; as much as stands in it where it ends before. */
export function shownBy(bytes) {
    const fields = new Fields(bytes);
    try {
        fields.all();
    } catch (fault) {
        if (!(fault instanceof RangeError)) throw fault;
    }
    return { told: fields.told, passed: fields.passed };
}

/** The proof that a line is of the history of a passed step, by its path. */
export function linkTo({ front, path }, { authenticator }) {
    const digest = Uint8Array.from(authenticator.match(/../g), (/** @type {string} */ digits) => parseInt(digits, 16));
    return Uint8Array.from([...new TextEncoder().encode("TWP1\u0005"), ...front, ...digest, ...path]);
}
