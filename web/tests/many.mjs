// Checks one proof many times by the module, and tells how many a second of processor time, as examples/many_proofs.c does by the library.
//
//     node web/tests/many.mjs PROOF ANCHORS [COUNT]
import { readFileSync } from "node:fs";
import { ACCEPTED, load } from "../timeweave.mjs";

const [proofName, anchorsName, wanted = 20000] = process.argv.slice(2), count = Number(wanted);
const timeweave = await load(), [proof, anchors] = [proofName, anchorsName].map((name) => new Uint8Array(readFileSync(name)));

function judged(times) {
    let accepted = 0;
    for (let time = 0; time < times; time++) accepted += timeweave.judge(proof, anchors).status === ACCEPTED;
    return accepted;
}

// (an engine compiles again what is called often, beside the calls)
for (const warm = performance.now() + 1000; performance.now() < warm; ) judged(1);
const begun = process.cpuUsage(), accepted = judged(count), { user, system } = process.cpuUsage(begun);
console.log(`${accepted} of ${count} accepted, ${Math.round(count / ((user + system) / 1e6))} a second of processor time`);
