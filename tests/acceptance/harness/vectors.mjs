// Judges all vectors of these forms by the module for JavaScript, and tells those that it answers otherwise; a line in words is left out.
//
//     node tests/acceptance/harness/vectors.mjs FOLDER FORM ..
import { readFile, readdir } from "node:fs/promises";
import { BadAnchors, BadFile, Rejected, load } from "../../../web/timeweave.mjs";

const [folder, ...forms] = process.argv.slice(2), timeweave = await load();
let tried = 0;

/** The status and the text of the program, of what a call of the module gives or throws. */
function answered(call) {
    try {
        return [0, call().text];
    } catch (refusal) {
        if (refusal instanceof Rejected) return [1, `rejected ${refusal.message}\n`];
        if (refusal instanceof BadAnchors) return [9, `unreadable ${refusal.file} line ${refusal.line}\n`];
        if (refusal instanceof BadFile) return [9, `unreadable ${refusal.message}\n`];
        throw refusal;
    }
}

for (const name of (await readdir(folder)).filter((name) => name.endsWith(".json"))) {
    for (const { name: title, words, files, status, text } of JSON.parse(await readFile(`${folder}/${name}`)).vectors ?? []) {
        const [form, ...rest] = words;
        if (!forms.includes(form) || !rest.every((file) => file in files)) continue;
        const found = answered(() => timeweave[form](...rest.map((file) => Uint8Array.from(Buffer.from(files[file], "hex")))));
        tried++;
        if (found[0] !== status || found[1] !== text) console.log(`${name}: ${title}\n  wanted ${status} ${text}  got    ${found}`);
    }
}
console.log(`${tried} tried`);
