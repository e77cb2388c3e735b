// Judges files in this process: prints the text of the program's command of the same name, and ends with its status. `make page` builds the module.
//
//     node examples/bindings/judge.mjs strict PROOF ANCHORS
import { readFile } from "node:fs/promises";
import { BadAnchors, BadFile, NO_MEMORY, REJECTED, Rejected, UNREADABLE, load } from "../../web/timeweave.mjs";

const FORMS = { verify: "PROOF ANCHORS", strict: "PROOF ANCHORS", checkmap: "LOW HIGH ANCHORS", checkfork: "EVIDENCE ANCHORS", contradict: "FIRST ANCHORS SECOND ANCHORS LINK",
    receiver: "EVIDENCE ANCHORS LINK" };

const [form, ...names] = process.argv.slice(2);
if (!Object.hasOwn(FORMS, form ?? "") || names.length !== FORMS[form].split(" ").length) {
    console.error(`usage: judge.mjs ${Object.entries(FORMS).map((words) => words.join(" ")).join(" | ")}`);
    process.exit(2);
}
const files = await Promise.all(names.map((name) => readFile(name))).catch((why) => {
    console.error(why.message);
    process.exit(3);
});
const timeweave = await load();
// (a report that isn't written is no answer)
process.stdout.on("error", (why) => {
    console.error(why.message);
    process.exitCode = 4;
});

try {
    process.stdout.write(timeweave[form](...files).text);
} catch (refusal) {
    if (refusal instanceof Rejected) {
        process.stdout.write(`rejected ${refusal.message}\n`);
        process.exitCode = REJECTED;
    } else if (refusal instanceof BadAnchors || refusal instanceof BadFile) {
        process.stdout.write(`unreadable ${refusal.file} ${refusal instanceof BadFile ? `byte ${refusal.place}` : `line ${refusal.line}`}\n`);
        process.exitCode = UNREADABLE;
    } else {
        // (no memory, or the module trapped: nothing was judged)
        console.error(refusal);
        process.exitCode = NO_MEMORY;
    }
}
