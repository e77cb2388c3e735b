/** Lines that somebody typed, as from a letter, and what was typed wrong: by the rules of weft's deciding/letters.py, which has their reasons. */

import { Sha256 } from "./sha256.mjs";

const DIGITS = 64, GROUP = 4, ROW = 16, FEWEST = 24, SHARE = 6, MOST_STEP = 2 ** 40 - 1;
const LETTERS = "GHJKLMNPQRTUVWXYZ", PRIME = LETTERS.length, HEX = "0123456789abcdef";
const NAME_WORD = /^[a-z0-9-]{1,16}$/, STEP_WORD = /^([1-9][0-9]{0,12}|0)$/, PIECE_WORD = /^[0-9A-Za-z]{1,128}$/, CHECK_WORD = new RegExp(`^([${LETTERS}]{2}|[${LETTERS}]{4})$`);
const MEANT = { o: "0", i: "1", l: "1", z: "2", s: "5", g: "9", q: "9" };

const checkLetters = (numbers) => numbers.map((it) => LETTERS[((it % PRIME) + PRIME) % PRIME]).join("");

function sumsOf(row, number) {
    const digits = [...row].map((digit) => HEX.indexOf(digit));
    return [digits.reduce((sum, it) => sum + it, number) % PRIME, digits.reduce((sum, it, at) => sum + it * (at + 1), number) % PRIME];
}

/** The two letters that check a row of sixteen digits, of which this is the number from 1 on. */
const checkRow = (row, number) => checkLetters(sumsOf(row, number));

/** The four letters that check a line. */
function checkWhole({ service, step, authenticator }) {
    const sum = new Sha256();
    sum.add(new TextEncoder().encode(`${service} ${step} ${authenticator}`));
    let number = sum.end().reduce((whole, byte) => whole * 256n + BigInt(byte), 0n);
    const numbers = [];
    for (let place = 0; place < 4; place++, number /= BigInt(PRIME)) numbers.push(Number(number % BigInt(PRIME)));
    return checkLetters(numbers);
}

const placeWords = (place) => `digit ${(place % GROUP) + 1} of group ${Math.floor(place / GROUP) + 1}`;

/** Where two digests differ in one digit, or in two neighbours that are swapped: {where, one, other}; else null. */
export function findSlip(one, other) {
    const places = [...one].flatMap((letter, place) => (letter === other[place] ? [] : [place])), [first, second] = places;
    const isSwapped = places.length === 2 && second === first + 1 && one[first] === other[second] && one[second] === other[first];
    if (places.length !== 1 && !isSwapped) return null;
    const at = (text) => places.map((place) => text[place]).join("");
    return { where: places.map(placeWords).join(" and "), one: at(one), other: at(other) };
}

/** What is said of a row that its letters don't fit: which digit is wrong if one is. */
function guessOf(row, number, letters) {
    const sums = sumsOf(row, number), [first, second] = [...letters].map((letter, at) => (LETTERS.indexOf(letter) - sums[at] + PRIME) % PRIME);
    const inverse = [...Array(PRIME).keys()].find((it) => (it * first) % PRIME === 1), place = first ? (second * inverse) % PRIME : 0;
    const right = place ? (HEX.indexOf(row[place - 1]) + first) % PRIME : PRIME;
    return place >= 1 && place <= ROW && right < HEX.length ? `${placeWords(place - 1)}: ${HEX[right]}, and not ${row[place - 1]}` : "";
}

// ---- reading

const withoutEnd = (word) => word.replace(/[:;,.]+$/, "");

const TAKEN_OUT = /^#+\s*[a-z0-9-]{1,16} (0|[1-9][0-9]{0,12}) [0-9a-fA-F]{64}( [0-9]{4}-[0-9]{2}-[0-9]{2}T[0-9]{2}:[0-9]{2}:[0-9]{2}Z( .*)?)?\s*$/;

const ABOVE = /^# The line of step [0-9]{1,13} of [a-z0-9-]{1,16}\. Behind each row of digits stand two letters that check it, and below all four that check the whole\.\s*$/;
const BELOW = /^# Keep this letter\. Whoever types the digits: weft keep FILE --by letter, or the field for lines of the web page, tells what was typed wrong\.\s*$/;

/** Whether what stands behind # in a line of a text is a line alone, or one as it was kept, with its date, or what letters say that weft writes: that isn't read. */
export const isTakenOut = (line) => [TAKEN_OUT, ABOVE, BELOW].some((it) => it.test(line));

function typedWordsOf(text) {
    const quoteMarks = /^[ \t]*(?:>[ \t]*)+/, given = text.replace(/[\u200b\u2060\ufeff]/g, "").split(/\r\n|[\n\r\v\f\x1c-\x1e\x85\u2028\u2029]/);
    const lines = given.map((line) => line.replace(quoteMarks, "")), isQuoted = (number) => quoteMarks.test(given[number]);
    return lines.flatMap((line, number) => (isTakenOut(line) ? [] : line.split(/\s+/).filter((it) => it).map((word, place) => ({ text: word, number: number + 1, isFirst: place === 0, isQuoted: isQuoted(number) }))));
}

const strangeIn = (text) => [...text.toLowerCase()].filter((letter) => !HEX.includes(letter)).length;
const isPiece = (word) => PIECE_WORD.test(word) && strangeIn(word) * 4 <= word.length;

function begins(words, at) {
    if (at + 2 >= words.length || !words[at].isFirst) return false;
    const step = withoutEnd(words[at + 1].text);
    return NAME_WORD.test(words[at].text.toLowerCase()) && STEP_WORD.test(step) && Number(step) <= MOST_STEP && isPiece(words[at + 2].text);
}

const isNextLine = (words, at) => begins(words, at) && !(words[at].text.length === GROUP && words[at + 1].text.length === GROUP && /^[0-9a-f]*$/.test(words[at].text));

function takeDigits(words, start) {
    let digits = "", size = 0, at = start;
    const checks = [];
    for (; at < words.length; at++) {
        const { text, isFirst } = words[at], isBehind = digits.length >= DIGITS && !(text.length === GROUP && size === GROUP && !isFirst);
        if (CHECK_WORD.test(text) && digits) {
            checks.push([text, digits.length]);
        } else if (isBehind || !isPiece(text) || (at > start && isFirst && isNextLine(words, at))) {
            break;
        } else {
            digits += text.toLowerCase();
            size = text.length;
        }
    }
    return { digits, checks, end: at };
}

/**
 * The lines of a text that somebody typed, `typed`: {number, service, step, digits}, and with them the `fault`, the `row` of it and what else is `said`; the number is that
 * of the line in the text. And the numbers of the text's lines in which anything else stands, `others`.
 */
export function readTyped(text) {
    const words = typedWordsOf(text), found = [], others = new Set();
    for (let at = 0; at < words.length; ) {
        const taken = begins(words, at) ? takeDigits(words, at + 2) : null;
        if (!taken || taken.digits.length < FEWEST || strangeIn(taken.digits) * SHARE > taken.digits.length) {
            const { text: word, number } = words[at];
            if (word.length >= FEWEST && isPiece(word)) found.push({ number, service: "", step: 0, digits: word.toLowerCase(), fault: "digits alone", row: 0, said: "" });
            others.add(number);
            at += 1;
            continue;
        }
        const typed = { number: words[at].number, service: words[at].text.toLowerCase(), step: Number(withoutEnd(words[at + 1].text)), digits: taken.digits, fault: null, row: 0, said: "" };
        found.push({ ...typed, ...faultOf(typed, taken) });
        for (const word of words.slice(at, taken.end)) if (word.isQuoted) others.add(word.number);
        at = taken.end;
    }
    return { typed: found, others: [...others].sort((one, other) => one - other) };
}

/** Digits in groups, as people compare them. */
export const inGroups = (digits) => digits.match(/.{1,4}/g).join(" ");

function faultOf(typed, { digits, checks }) {
    const place = [...digits].findIndex((letter) => !HEX.includes(letter)), letter = digits[place];
    if (place >= 0) return { fault: "digit wrong", row: Math.floor(place / ROW) + 1, said: `${letter} as ${placeWords(place)}${MEANT[letter] ? ` (is it ${MEANT[letter]}?)` : ""}` };
    return wrongLength(digits, checks) ?? wrongRow(digits, checks) ?? wrongWhole(typed, checks) ?? {};
}

function wrongLength(digits, checks) {
    const ends = checks.filter(([letters]) => letters.length === 2).map(([, count]) => count), count = digits.length;
    for (const [at, end] of ends.entries()) {
        const long = end - (at ? ends[at - 1] : 0);
        if (long !== ROW) return { fault: long < ROW ? "digits short" : "digits long", row: at + 1, said: `row ${at + 1} has ${long} digits, and not ${ROW}` };
    }
    if (count === DIGITS) return undefined;
    const group = Math.floor(count / GROUP), rest = count % GROUP ? `group ${group + 1} has ${count % GROUP}` : `group ${group} is the last one`;
    const row = Math.min(Math.floor(count / ROW) + 1, DIGITS / ROW);
    return { fault: count < DIGITS ? "digits short" : "digits long", row, said: count < DIGITS ? rest : `digit ${DIGITS + 1} is behind the end` };
}

function wrongRow(digits, checks) {
    for (const [letters, count] of checks.filter((it) => it[0].length === 2)) {
        const row = digits.slice(count - ROW, count), number = Math.floor(count / ROW);
        if (checkRow(row, number) !== letters) return { fault: "row check", row: number, said: guessOf(row, number, letters) };
    }
    return undefined;
}

function wrongWhole({ service, step, digits }, checks) {
    const wanted = checkWhole({ service, step, authenticator: digits });
    return checks.some(([letters]) => letters.length === 4 && letters !== wanted) ? { fault: "whole check" } : undefined;
}
