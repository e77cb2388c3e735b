/**
 * The picture of an accepted proof, drawn of its report and of the lines that count alone: where there is room, each service's history as a
 * line, later steps to the right; else as a list, later steps below, with the services' lines at its side.
 */

import { heldAs } from "./lines.mjs";
import { eventLabel, eventWords, timeWords } from "./words.mjs";

const placeKey = ([service, step]) => `${service} ${step}`;

/**
 * What is drawn of a report under the anchors that counted: points, each {service, step, says, event, anchor}; arrows {from, to, kind} between
 * them; spans {from, to} that a line binds. A line that was received is drawn as bound where `own` has it.
 */
export function drawing(report, anchors, own = []) {
    const points = new Map(), arrows = [], spans = [];
    const point = (service, step) => {
        const key = placeKey([service, step]);
        if (!points.has(key)) points.set(key, { service, step, says: [] });
        return points.get(key);
    };
    const isCarried = (thread) => report.carried.some((it) => it.service === thread.service && it.step === thread.step);
    const arrow = (from, to, kind) => {
        arrows.push({ from: [from.service, from.step], to: [to.service, to.step], kind });
        point(from.service, from.step);
        point(to.service, to.step);
    };
    for (const hop of report.hops) {
        arrow(hop, { service: hop.by, step: hop.archived }, isCarried(hop) ? "carried" : "bound");
        point(hop.by, hop.archived).says.push(`received step ${hop.step} of ${hop.service}`);
    }
    for (const event of report.events) {
        const at = point(event.service, event.step);
        at.event = event;
        at.says.push(`event ${eventWords(event.data, 80, 16)}${event.time === undefined ? "" : `, claimed for ${timeWords(event.time)}`}`);
    }
    if (report.received) {
        const { service, step, thread, archived } = report.received;
        arrow(thread, { service, step: archived }, heldAs(thread, own) === "the same" ? "bound" : "carried");
        point(service, archived).says.push(`received step ${thread.step} of ${thread.service}`);
        point(service, step);
    }
    if (report.absent) {
        const { service, step, ofService, ofStep } = report.absent;
        arrow({ service: ofService, step: ofStep }, { service, step }, "absent");
        point(service, step).says.push(`has received no line of step ${ofStep} of ${ofService} so far`);
    }
    if (report.map) {
        const { service, step, peer, low, high, upto } = report.map, place = { service, step }, of = (it) => ({ service: peer, step: it });
        point(service, step);
        if (low) arrow(of(low), place, "order");
        if (low) point(service, step).says.push(`step ${low} of ${peer} is the last that was received before`);
        if (high !== undefined) arrow(place, of(high), "order");
        if (high !== undefined) point(peer, high).says.push(`the first that received step ${step} of ${service} or a later one`);
        if (high === undefined) point(peer, upto).says.push(`has received neither step ${step} of ${service} nor a later one so far`);
    }
    for (const { thread, by, archived } of report.fork ? [report.fork.first, report.fork.second] : []) {
        arrow(thread, { service: by, step: archived }, heldAs(thread, own) === "the same" ? "bound" : "carried");
        point(thread.service, thread.step).says.push(`the line ${thread.authenticator.slice(0, 16)}…`);
        point(by, archived).says.push(`received step ${thread.step} of ${thread.service}`);
    }
    if (report.link) point(report.link.thread.service, report.link.thread.step).says.push("the line that is linked");
    for (const anchor of anchors) {
        const at = point(anchor.service, anchor.step);
        at.anchor = anchor;
        at.says.push(anchor.from.isSender ? "the sender's line" : "your line");
        const isBelow = (it) => it.service === anchor.service && it.step < anchor.step && isBound(it, report);
        const below = [...points.values()].filter(isBelow).map((it) => it.step);
        if (below.length) spans.push({ from: [anchor.service, Math.min(...below)], to: [anchor.service, anchor.step] });
    }
    return placed({ points: [...points.values()], arrows, spans });
}

/** Whether the anchor of its service binds a point: the last event, a thread that isn't carried, what an archive shows, and a linked line. */
function isBound({ service, step }, report) {
    const isAt = (place) => place && place.service === service && place.step === step;
    return isAt(report.events.at(-1)) || isAt(report.received) || isAt(report.absent) || isAt(report.link?.thread)
        || report.hops.some((hop) => isAt(hop) && !report.carried.some((it) => isAt(it)));
}

/** The drawing with a column for each point: right of all that come before it, on its own line or over an arrow. */
function placed({ points, arrows, spans }) {
    const column = new Map(points.map(({ service, step }) => [placeKey([service, step]), 0]));
    const before = arrows.map(({ from, to }) => [placeKey(from), placeKey(to)]);
    const byService = grouped(points);
    for (const own of byService.values()) {
        own.sort((a, b) => a.step - b.step);
        own.slice(1).forEach((later, at) => before.push([placeKey([own[at].service, own[at].step]), placeKey([later.service, later.step])]));
    }
    for (let moved = true, left = points.length + 1; moved && left; left--) {
        moved = false;
        for (const [from, to] of before) {
            if (column.get(to) > column.get(from)) continue;
            column.set(to, column.get(from) + 1);
            moved = true;
        }
    }
    for (const it of points) it.column = column.get(placeKey([it.service, it.step]));
    const first = (service) => Math.min(...byService.get(service).map((it) => it.column));
    const services = [...byService.keys()].sort((a, b) => first(a) - first(b));
    // (of one column those first that a hop leads to, so that it leaves its line right behind the step that it comes from)
    const isReached = (it) => arrows.some(({ to }) => placeKey(to) === placeKey([it.service, it.step]));
    const place = ({ service }) => services.indexOf(service);
    const ordered = [...points].sort((a, b) => a.column - b.column || isReached(b) - isReached(a) || place(a) - place(b));
    return { points: ordered, arrows, spans, services, columns: Math.max(...points.map((it) => it.column)) + 1 };
}

function grouped(points) {
    const found = new Map();
    for (const it of points) found.set(it.service, [...(found.get(it.service) ?? []), it]);
    return found;
}

// ---- as lines

const LEFT = 150, WIDE = 132, HIGH = 104, RIGHT = 96;

/** How wide the drawing is as lines. */
export const widthOf = ({ columns }) => LEFT + 24 + (columns - 1) * WIDE + RIGHT;

/** Whether the drawing is shown as lines where there is so much room. */
export const isShownAsLines = (drawn, room) => drawn.services.length <= 6 && widthOf(drawn) <= room;

function made(name, attributes = {}, text) {
    const element = document.createElementNS("http://www.w3.org/2000/svg", name);
    for (const [key, value] of Object.entries(attributes)) element.setAttribute(key, value);
    if (text !== undefined) element.textContent = text;
    return element;
}

/** The head of an arrow at a place, in its direction. */
function head(kind, x, y, dx, dy) {
    const long = Math.hypot(dx, dy) || 1, [ux, uy] = [dx / long, dy / long], [bx, by] = [x - 11 * ux, y - 11 * uy];
    return made("path", { class: `head ${kind}`, d: `M${x} ${y}L${bx - 5 * uy} ${by + 5 * ux}L${bx + 5 * uy} ${by - 5 * ux}z` });
}

function arrowLines(at, { from, to, kind }) {
    const [[ax, ay], [bx, by]] = [at(from), at(to)], long = Math.hypot(bx - ax, by - ay) || 1, [ux, uy] = [(bx - ax) / long, (by - ay) / long];
    const [sx, sy, ex, ey] = [ax + 11 * ux, ay + 11 * uy, bx - 13 * ux, by - 13 * uy];
    const parts = [made("line", { class: `hop ${kind}`, x1: sx, y1: sy, x2: ex - 6 * ux, y2: ey - 6 * uy }), head(kind, ex, ey, ux, uy)];
    const label = { carried: "not bound", absent: "not received" }[kind];
    const [x, y] = [(ax + bx) / 2 - 12, (ay + by) / 2 + (by > ay ? 16 : -8)];
    if (label) parts.push(made("text", { class: `told ${kind}`, x, y, "text-anchor": "end" }, label));
    return parts;
}

/** The square of a point whose line counted. */
function square({ anchor }, x, y, size) {
    return made("rect", { class: anchor.from.isSender ? "anchor sender" : "anchor", x: x - size / 2, y: y - size / 2, width: size, height: size, rx: size / 6 });
}

function pointMarks(at, it) {
    const [x, y] = at([it.service, it.step]), parts = it.anchor ? [square(it, x, y, 24)] : [];
    const below = (high, text) => parts.push(made("text", { class: "number", x, y: y + high, "text-anchor": "middle" }, text));
    parts.push(made("circle", { class: it.event ? "event" : "step", cx: x, cy: y, r: it.event ? 7 : 5 }));
    below(29, `step ${it.step}`);
    if (it.anchor) below(44, it.anchor.from.isSender ? "sender's line" : "your line");
    if (it.event) parts.push(made("text", { class: "data", x, y: y - 20, "text-anchor": "middle" }, `${eventLabel(it.event.data, 18)}`));
    if (it.event?.time !== undefined) below(-37, `claims ${timeWords(it.event.time)}`);
    return parts;
}

/** The picture as lines, told by `words` to those who don't see it. */
export function asLines(drawn, words) {
    const hasTime = drawn.points.some((it) => it.event?.time !== undefined), above = hasTime ? 58 : drawn.points.some((it) => it.event) ? 42 : 24;
    const width = widthOf(drawn), height = above + (drawn.services.length - 1) * HIGH + 54;
    const column = new Map(drawn.points.map((it) => [placeKey([it.service, it.step]), it.column]));
    const high = (service) => above + drawn.services.indexOf(service) * HIGH;
    const at = (place) => [LEFT + 24 + column.get(placeKey(place)) * WIDE, high(place[0])];
    const picture = made("svg", { class: "lines", viewBox: `0 0 ${width} ${height}`, width, height, role: "img", "aria-label": words });
    for (const service of drawn.services) {
        const y = high(service);
        picture.append(made("text", { class: "name", x: LEFT - 14, y: y + 5, "text-anchor": "end" }, service));
        picture.append(made("line", { class: "service", x1: LEFT, y1: y, x2: width - 26, y2: y }), head("later", width - 16, y, 1, 0));
    }
    for (const { from, to } of drawn.spans) {
        const [[ax, ay], [bx]] = [at(from), at(to)];
        picture.append(made("line", { class: "binds", x1: ax, y1: ay, x2: bx, y2: ay }));
    }
    for (const arrow of drawn.arrows) picture.append(...arrowLines(at, arrow));
    for (const it of drawn.points) picture.append(...pointMarks(at, it));
    return picture;
}

// ---- as a list

const MOST_ROOM = 150, MIDDLE = 15;

/**
 * The services at the side of the list: for each its place, from 0 on, which is used again once its last row is past; its first row, the row of
 * its last point, and the last row to which it or a hop from it goes; and how many places there are.
 */
function lanes({ points, arrows }) {
    const rowOf = new Map(points.map(({ service, step }, row) => [placeKey([service, step]), row])), found = new Map(), ends = [];
    for (const [row, { service }] of points.entries()) found.set(service, { first: row, ...found.get(service), own: row, end: row });
    for (const { from, to, kind } of arrows) {
        const lane = found.get(from[0]), row = rowOf.get(placeKey(to));
        if (row > lane.own) Object.assign(lane, { end: Math.max(lane.end, row), kind });
    }
    for (const lane of found.values()) {
        const free = ends.findIndex((end) => end < lane.first);
        lane.place = free < 0 ? ends.length : free;
        ends[lane.place] = lane.end;
    }
    return { found, count: ends.length };
}

const stripWidth = (count) => 24 + (count - 1) * Math.min(22, MOST_ROOM / count);

/** The strip at the side of a row: the lines of services that pass it, the hops that come in, and the row's point. */
function strip(drawn, { found, count }, row) {
    const wide = Math.min(22, MOST_ROOM / count), x = (service) => 12 + found.get(service).place * wide, it = drawn.points[row];
    const picture = made("svg", { class: "strip", width: stripWidth(count), height: "100%", "aria-hidden": "true" });
    const upright = (service, name, y1, y2) => picture.append(made("line", { class: name, x1: x(service), x2: x(service), y1, y2 }));
    for (const [service, { first, own, end, kind }] of found) {
        if (row >= first && row <= own && first < own) upright(service, "service", row === first ? MIDDLE : 0, row === own ? MIDDLE : "100%");
        if (row >= own && row < end) upright(service, `hop ${kind}`, row === own ? MIDDLE : 0, "100%");
    }
    for (const { from, to, kind } of drawn.arrows.filter((arrow) => placeKey(arrow.to) === placeKey([it.service, it.step]))) {
        const [ax, bx] = [x(from[0]), x(to[0])], side = Math.sign(ax - bx);
        const bend = `M${ax} 0Q${ax} ${MIDDLE} ${bx + 12 * side} ${MIDDLE}`;
        picture.append(made("path", { class: `hop ${kind}`, d: bend, fill: "none" }), head(kind, bx + 7 * side, MIDDLE, -side, 0));
    }
    if (it.anchor) picture.append(square(it, x(it.service), MIDDLE, 16));
    picture.append(made("circle", { class: it.event ? "event" : "step", cx: x(it.service), cy: MIDDLE, r: it.event ? 6 : 4 }));
    return picture;
}

/** What the picture shows, in words. */
export function legendOf({ arrows, spans }, isLines) {
    const kinds = new Set(arrows.map(({ kind }) => kind));
    return [
        isLines ? "Each row is a service's history, later steps to the right." : "Later steps are below; only steps that a stroke joins are in an order.",
        `Squares are the lines that counted${isLines && spans.length ? ", green is what they bind" : ""}.`,
        ...(kinds.has("bound") || kinds.has("carried") ? ["An arrow leads from a step to the step of another service that received it."] : []),
        ...(kinds.has("order") ? ["An arrow leads from a step to a later one of another service."] : []),
        ...(kinds.has("carried") ? ["A broken one is its receiver's word: no line binds it."] : []),
    ].join(" ");
}

/** What is said of each point in words, in the order of the list. */
export const pointWords = (drawn) => drawn.points.map(({ service, step, says }) => ({ place: `${service}, step ${step}`, says: says.join("; ") }));

/** The picture as a list. */
export function asList(drawn) {
    const list = document.createElement("ol"), side = lanes(drawn);
    list.className = "way";
    for (const [row, { place, says }] of pointWords(drawn).entries()) {
        const item = document.createElement("li"), words = document.createElement("span"), name = document.createElement("b");
        name.textContent = place;
        words.append(name, says ? ` ${says}` : "");
        item.style.paddingLeft = `${stripWidth(side.count) + 8}px`;
        item.append(strip(drawn, side, row), words);
        list.append(item);
    }
    return list;
}
