// What the page says of the answers that stand on standard input, a line of JSON each: {of, text}, and of a map its {service, step, peer}.
import { readFileSync } from "node:fs";
import { readBounds, readContradiction, readFork, readReport } from "../../../web/timeweave.mjs";
import {
    askForLinks, boundSentence, conflictWords, forkNotes, headline, mapNotes, reasonWords, shownLineNotes, shownSentence, timeNotes, wordNotes,
} from "../../../web/page/words.mjs";

const ofReport = (report) => [
    shownSentence(report), ...wordNotes(report, []), ...timeNotes(report), ...shownLineNotes(report, []),
    ...(report.carried.length ? [askForLinks(report)] : report.hops.length ? [boundSentence()] : []), ...forkNotes(report), ...mapNotes(report),
];
const empty = { events: [], hops: [], carried: [] };
const SAID = {
    proof: ({ text }) => ofReport(readReport(text)),
    map: ({ text, ...of }) => ofReport({ ...empty, kind: "map", map: { ...of, ...readBounds(text) } }),
    fork: ({ text }) => ofReport({ ...empty, kind: "fork", fork: readFork(text) }),
    contradiction: ({ text }) => Object.values(conflictWords(readContradiction(text))),
    reason: ({ text }) => Object.values(reasonWords(text)).filter((it) => it),
    headline: ({ text }) => [headline(text)],
};

for (const line of readFileSync(0, "utf8").split("\n").filter((it) => it)) {
    const answer = JSON.parse(line);
    console.log(JSON.stringify(SAID[answer.of](answer).map(String)));
}
