// Judges what comes on standard input by the module, one after another, and writes what it says: for the letter of a function and the bytes of the files that
// it takes, each behind its length in four bytes, a byte of the status and the text behind its length.
//
//     node web/tests/ask.mjs
import { load } from "../timeweave.mjs";

const timeweave = await load();
let rest = Buffer.alloc(0);

/** The functions of the library by their letters, each with the number of its files. */
const FUNCTIONS = {
    v: ["timeweave_verify", 2], s: ["timeweave_strict", 2], m: ["timeweave_checkmap", 3], f: ["timeweave_checkfork", 2], c: ["timeweave_contradict", 5],
    r: ["timeweave_receiver", 3],
};

/** The question at the front of what has come, {name, files, size}, or null where it isn't whole. */
function question(data) {
    if (!data.length) return null;
    const [name, count] = FUNCTIONS[String.fromCharCode(data[0])], files = [];
    let size = 1;
    for (; files.length < count; size += files.at(-1).length) {
        if (data.length < size + 4 || data.length < size + 4 + data.readUInt32BE(size)) return null;
        files.push(data.subarray(size + 4, size + 4 + data.readUInt32BE(size)));
        size += 4;
    }
    return { name, files, size };
}

for await (const chunk of process.stdin) {
    rest = rest.length ? Buffer.concat([rest, chunk]) : chunk;
    const said = [];
    for (let asked; (asked = question(rest)); rest = rest.subarray(asked.size)) {
        const { status, text } = timeweave.ask(asked.name, ...asked.files), bytes = Buffer.from(text), head = Buffer.alloc(5);
        head[0] = status;
        head.writeUInt32BE(bytes.length, 1);
        said.push(head, bytes);
    }
    if (said.length) process.stdout.write(Buffer.concat(said));
}
