"use strict";
// Draws what stands between two heights as the text of an SVG. Each thing that can be pointed at has the attribute `data-of`.

const CHIPS = new Set(["down", "loss", "recovery", "commit", "life"]);
const AMISS = new Set(["never taken", "never sent", "late", "again"]);
const ROUND = 5;

function escaped(text) {
    return text.replace(/&/g, "&amp;").replace(/</g, "&lt;").replace(/"/g, "&quot;");
}

function fitted(text, room) {
    return text.length <= room ? text : text.slice(0, Math.max(room - 1, 0)) + "…";
}

// ---- turns

/** The classes of an entry's first word. */
function signOf(line) {
    const message = messageAt.get(line);
    if (message) return message.family === "recovery" ? "recovery-message" : message.family;
    return data.signs[line] || "";
}

/** A tag at the right end of a line. */
function drawTag(tag, column, middle) {
    const amiss = AMISS.has(tag) ? " amiss" : "";
    const width = tag.length * SIZE.letter * 10 / SIZE.font + 8;
    const left = column.box + column.width - SIZE.pad - width;
    return `<rect class="tag${amiss}" x="${left}" y="${middle - 6}" width="${width}" height="12" rx="5"/>` +
        `<text class="told${amiss}" x="${left + 4}" y="${middle + 3.5}">${escaped(tag)}</text>`;
}

/** A line of a turn. */
function drawLine(line, column) {
    const middle = plan.middle[line], tag = data.tags[line] || "", sign = signOf(line);
    const text = fitted(data.texts[line - 1], column.letters - (tag ? tag.length + 2 : 0));
    const word = text.split(" ", 1)[0], left = column.box + SIZE.pad + 2;
    const chip = CHIPS.has(sign) && !messageAt.has(line)
        ? `<rect class="chip ${sign}" x="${left - 3}" y="${middle - 6.5}" width="${word.length * SIZE.letter + 6}" height="13" rx="3"/>` : "";
    return `<g data-of="line ${line}"><rect class="over" x="${column.box + 1}" y="${middle - SIZE.line / 2}" ` +
        `width="${column.width - 2}" height="${SIZE.line}"/>${chip}<text x="${left}" y="${middle + 3.8}">` +
        `<tspan class="word ${sign}">${escaped(word)}</tspan>${escaped(text.slice(word.length))}</text>` +
        (tag ? drawTag(tag, column, middle) : "") + "</g>";
}

function drawTurn(row) {
    const column = plan.columns[row.node];
    let text = `<rect class="box" data-of="turn ${row.turn}" x="${column.box}" y="${row.top}" width="${column.width}" height="${row.height}" rx="3"/>`;
    for (let line = row.first; line < row.first + row.count; line++) text += drawLine(line, column);
    return text;
}

// ---- messages

/** A line through points, with round corners. */
function route(points) {
    let text = `M${points[0]}`;
    for (let place = 1; place + 1 < points.length; place++) {
        const [before, [x, y], after] = [points[place - 1], points[place], points[place + 1]];
        const near = ([fromX, fromY]) => {
            const far = Math.hypot(fromX - x, fromY - y) || 1, part = Math.min(ROUND, far / 2) / far;
            return [x + (fromX - x) * part, y + (fromY - y) * part];
        };
        text += `L${near(before)}Q${[x, y]} ${near(after)}`;
    }
    return text + `L${points[points.length - 1]}`;
}

/** The head of an arrow that ends at a point, going to the right (1) or to the left (-1). */
function arrowHead(x, y, way) {
    return `<path class="tip" d="M${x},${y}l${-8 * way},-4v8z"/>`;
}

function cross(x, y) {
    return `<path class="cross" d="M${x - 5},${y - 5}l10,10m0,-10l-10,10"/>`;
}

function drawArrow(arrow) {
    const {message, kind, top, bottom} = arrow;
    const to = plan.columns[arrow.to], start = startOf(arrow);
    const lane = laneAt(to, kind === "lost" ? plan.lanes[arrow.to].length : arrow.lane);
    const points = kind === "lost" ? [[start, top], [lane, top]]
        : [[start, top], [lane, top], [lane, bottom], [to.edge + to.facing * 6, bottom]];
    const path = route(points);
    const end = kind === "lost" ? cross(lane, top) : arrowHead(to.edge, bottom, -to.facing);
    return `<g class="arrow ${message.family} ${kind}" data-of="message ${message.sent}"><path class="reach" d="${path}"/>` +
        `<path class="line" d="${path}"/><circle cx="${start}" cy="${top}" r="2.6"/>${end}</g>`;
}

// ---- bars

/** The parts of a bar: where it waits, where it is, and where it is called back. */
function barParts(bar) {
    const {item, top, bottom} = bar;
    const granted = item.granted ? plan.middle[item.granted] : bottom;
    const style = item.kind === "lock" || item.kind === "hold" ? `mode-${/^\w+$/.test(item.mode) ? item.mode : ""}` : item.kind;
    const parts = [];
    if (granted > top) parts.push([`${style} waiting`, top, granted]);
    if (item.granted) parts.push([style, granted, bottom]);
    if (item.blocked) parts.push(["called", plan.middle[item.blocked], bottom]);
    return parts;
}

function drawBar(bar) {
    const column = plan.columns[bar.item.node], left = barAt(column, bar.lane), inset = bar.item.kind === "hold" ? 2.5 : 1;
    const side = column.facing > 0 ? column.box : column.box + column.width;
    const tie = height => `<path class="tie" d="M${side},${height}H${left + SIZE.bar / 2}"/>`;
    let text = tie(bar.top) + (bar.item.to ? tie(bar.bottom) : "");
    for (const [style, top, bottom] of barParts(bar)) {
        text += `<rect class="${style}" x="${left + inset}" y="${top}" width="${SIZE.bar - 2 * inset}" height="${Math.max(bottom - top, 3)}"/>`;
    }
    return `<g class="bar" data-of="bar ${bar.place}">${text}</g>`;
}

/** A bar's label, along it at each of its places. */
function drawLabel(bar) {
    const left = barAt(plan.columns[bar.item.node], bar.lane) + SIZE.bar / 2 - 3.4;
    const light = ["down", "dead", "failed"].includes(bar.item.kind) ? ' class="light"' : "";
    return bar.places.map(top => `<text${light} transform="translate(${left},${top})rotate(90)">${escaped(bar.label)}</text>`).join("");
}

/** The stretch of a node's column in which it is down, recovering or dead. */
function drawTint(bar) {
    if (bar.item.kind === "lock" || bar.item.kind === "hold") return "";
    const {left, right} = plan.columns[bar.item.node];
    return `<rect class="tint ${bar.item.kind}" x="${left}" y="${bar.top}" width="${right - left}" height="${bar.bottom - bar.top}"/>`;
}

// ---- all that stands between two heights

/** The rows that meet a stretch; rows are in order of their tops. */
function rowsBetween(top, bottom) {
    let low = 0, high = plan.rows.length;
    while (low < high) {
        const middle = (low + high) >> 1;
        if (plan.rows[middle].top + plan.rows[middle].height < top) low = middle + 1; else high = middle;
    }
    const rows = [];
    for (let place = low; place < plan.rows.length && plan.rows[place].top <= bottom; place++) rows.push(plan.rows[place]);
    return rows;
}

function framed(width, top, bottom, text) {
    return `<svg style="top:${top}px" width="${width}" height="${bottom - top}" viewBox="0 ${top} ${width} ${bottom - top}">${text}</svg>`;
}

function drawChart(top, bottom) {
    const meets = one => one.top <= bottom && one.bottom >= top;
    const rows = rowsBetween(top, bottom), bars = plan.bars.filter(meets), arrows = plan.arrows.filter(meets);
    const columns = plan.columns.filter(column => column);
    const parts = [
        columns.map(one => `<rect class="column" x="${one.left}" y="${top}" width="${one.right - one.left}" height="${bottom - top}"/>`),
        bars.map(drawTint),
        rows.map(row => `<path class="row" d="M0,${row.top - SIZE.gap / 2}H${plan.width}"/>`),
        bars.map(drawBar), arrows.map(drawArrow), ['<g class="labels">'], bars.map(drawLabel), ["</g>"], rows.map(drawTurn)];
    return framed(plan.width, top, bottom, parts.map(part => part.join("")).join(""));
}

function drawAxis(top, bottom) {
    const stamps = rowsBetween(top, bottom).map(row =>
        `<text class="stamp" x="42" y="${row.top + SIZE.pad + SIZE.line / 2 + 3.8}">${row.stamp}</text>`);
    return framed(48, top, bottom, stamps.join(""));
}

function drawHeads() {
    return plan.columns.filter(column => column).map(({place, box, width}) => {
        const [name, role] = data.nodes[place], middle = 48 + box + width / 2;
        return `<div class="head" style="left:${middle - 80}px;width:160px"><b>${name}</b><small>${role}</small></div>`;
    }).join("");
}
