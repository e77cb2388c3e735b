// What the page says of each bundle that stands on standard input, a line of JSON each: {data, own}, the bytes in base64 and the reader's lines. Judged by the page's module
// where that is built, else by the program that is named. Answers {read, title, met, sender}: the digests of its files by their names or why there are none, what is said
// first, what meets each of its lines, and how many lines of the sender counted.
import { spawnSync } from "node:child_process";
import { createHash } from "node:crypto";
import { existsSync, writeFileSync } from "node:fs";
import { createInterface } from "node:readline";
import { load } from "../../../web/timeweave.mjs";
import { readBundle } from "../../../web/page/bundles.mjs";
import { OWN, SENT, Session, readFile } from "../../../web/page/session.mjs";
import { headOf } from "../../../web/page/view.mjs";

const [program, work] = process.argv.slice(2), module = new URL("../../../web/timeweave.wasm", import.meta.url);
const CALLS = ["verify", "strict", "checkmap", "checkfork"];

/** The authenticators that stand in a bundle and in the reader's lines, and that of the line that the page puts in the place of one that is missing. */
let known = new Set();
/** Whether anchors have a line that the page tries since another one may have been typed wrong: there are many of these, and each is rejected as that one is. */
const isTried = (anchors) => `${anchors}`.split("\n").some((line) => line && !known.has(line.split(" ")[2]));

/** The program in the place of the module, as far as it has such commands. */
const byProgram = {
    has: (name) => CALLS.includes(name.replace("timeweave_", "")),
    ask: (name, ...files) => {
        const paths = files.map((_, at) => `${work}/asked-${at}`);
        files.forEach((data, at) => writeFileSync(paths[at], data));
        const done = spawnSync(program, [name.replace("timeweave_", ""), ...paths]);
        return { status: done.status, text: paths.reduce((text, path, at) => text.replaceAll(path, namesOf(paths.length)[at]), done.stdout.toString()) };
    },
};
const namesOf = (count) => (count === 3 ? ["low", "high", "anchors"] : ["proof", "anchors"]);
const judge = existsSync(module) ? await load() : byProgram;
const timeweave = {
    has: (name) => judge.has(name),
    ask: (name, ...files) => (CALLS.includes(name.replace("timeweave_", "")) && isTried(files.at(-1)) ? { status: 1, text: "rejected 4 BadPath 0\n" } : judge.ask(name, ...files)),
    judge: (proof, anchors) => timeweave.ask("timeweave_verify", proof, anchors),
};

function told({ data, own }) {
    const bytes = new Uint8Array(Buffer.from(data, "base64")), { files, unfit } = readBundle(bytes), session = new Session(), mine = new TextEncoder().encode(own);
    const read = unfit ?? Object.fromEntries([...files].map(([name, part]) => [name, createHash("sha256").update(part).digest("hex")]));
    const sent = readFile({ name: "b.zip", size: bytes.length, bytes, place: SENT });
    if (sent.kind !== "bundle") return { read };
    session.add(sent);
    if (own) session.add(readFile({ name: "mine", size: mine.length, bytes: mine, place: OWN }));
    known = new Set(["0".repeat(64), ...session.files.flatMap(({ lines }) => lines.map(({ authenticator }) => authenticator))]);
    const judged = session.judge(timeweave, session.subjects[0]);
    const met = (judged.met ?? []).map(({ line, met: by }) => [line.service, line.step, line.authenticator, by]);
    return { read, title: headOf(judged).title, met, sender: judged.anchors.filter(({ from }) => from.isSender).length };
}

for await (const line of createInterface({ input: process.stdin })) console.log(JSON.stringify(told(JSON.parse(line))));
