// What the page says first of each case that stands on standard input, a line of JSON each: {folder, proof, sent, own, document}, judged by the page's module where that is
// built, else by the program that is named.
import { spawnSync } from "node:child_process";
import { existsSync, readFileSync, writeFileSync } from "node:fs";
import { load } from "../../../web/timeweave.mjs";
import { digestOfBlob } from "../../../web/page/documents.mjs";
import { DOCUMENT, OWN, SENT, Session, readFile } from "../../../web/page/session.mjs";
import { headOf } from "../../../web/page/view.mjs";

const [program, work] = process.argv.slice(2), module = new URL("../../../web/timeweave.wasm", import.meta.url);
const FILES = { verify: 1, strict: 1, checkmap: 2, checkfork: 1 };

/** The program in the place of the module, as far as it has such commands. */
const byProgram = {
    has: (name) => name.replace("timeweave_", "") in FILES,
    ask: (name, ...files) => {
        const call = name.replace("timeweave_", ""), paths = files.map((_, at) => `${work}/asked-${at}`);
        files.forEach((data, at) => writeFileSync(paths[at], data));
        const done = spawnSync(program, [call, ...paths]);
        return { status: done.status, text: done.stdout.toString().replaceAll(paths.at(-1), "anchors") };
    },
    judge: (proof, anchors) => byProgram.ask("timeweave_verify", proof, anchors),
};
const timeweave = existsSync(module) ? await load() : byProgram;

for (const line of readFileSync(0, "utf8").split("\n").filter((it) => it)) {
    const { folder, proof, sent, own, document } = JSON.parse(line), session = new Session();
    const add = async (name, place) => {
        const bytes = new Uint8Array(readFileSync(`${folder}/${name}`)), file = readFile({ name, place, bytes, size: bytes.length });
        if (place === DOCUMENT) Object.assign(file, await digestOfBlob(new Blob([bytes])));
        session.add(file);
    };
    for (const name of [proof, ...sent]) await add(name, SENT);
    for (const name of own) await add(name, OWN);
    if (document) await add(document, DOCUMENT);
    const judged = session.subjects.map((it) => session.judge(timeweave, it)).find(({ file }) => file.name === proof), head = headOf(judged);
    console.log(JSON.stringify({ look: head.look, title: head.title, sentence: `${head.sentence}` }));
}
