"use strict";
// Where everything stands: turns in rows, nodes in columns, arrows and bars in lanes. Columns have a gutter for arrows on the side
// that faces the other kind of node, and their bars on the other side.

const data = JSON.parse(document.getElementById("data").textContent);
const SIZE = {line: 15, pad: 4, gap: 10, edge: 8, arm: 15, lane: 8, lanes: 14, bar: 15, space: 8, least: 13, most: 44, letter: 6.63, font: 11,
    small: 5.7, again: 420, tail: 40};
const turnOf = new Int32Array(data.raws.length + 1);
const messageAt = new Map();
const placeOf = new Map(data.nodes.map(([name], place) => [name, place]));
const plan = {shown: new Set(data.nodes.keys()), rows: [], middle: new Float64Array(data.raws.length + 1), columns: [], arrows: [],
    bars: [], lanes: [], width: 0, height: 0};

/** Tables from a line to its turn and to the message that it sends or takes. */
function index() {
    data.turns.forEach(([, , first, count], place) => turnOf.fill(place, first, first + count));
    for (const message of data.messages) {
        messageAt.set(message.sent, message);
        for (const [line] of message.takings) messageAt.set(line, message);
    }
    const brush = document.createElement("canvas").getContext("2d");
    brush.font = SIZE.font + 'px "DejaVu Sans Mono", Menlo, Consolas, monospace';
    SIZE.letter = brush.measureText("0".repeat(100)).width / 100 || SIZE.letter;
}

/** The place of the node at which a line stands. */
function nodeAt(line) {
    return data.turns[turnOf[line]][1];
}

/** A row for each turn of a shown node, and the height at which each line stands; a line that isn't shown has its turn's place. */
function arrangeRows() {
    plan.rows = [];
    let top = SIZE.gap;
    data.turns.forEach(([stamp, node, first, count], turn) => {
        const isShown = plan.shown.has(node);
        for (let line = first; line < first + count; line++) {
            plan.middle[line] = isShown ? top + SIZE.pad + (line - first + 0.5) * SIZE.line : top;
        }
        if (!isShown) return;
        const height = count * SIZE.line + 2 * SIZE.pad;
        plan.rows.push({turn, stamp, node, first, count, top, height});
        top += height + SIZE.gap;
    });
    plan.height = top + SIZE.tail;
}

/** The lane of a stretch: the first that is free where it begins, a new one, or, where no more may be, the one that is free first. */
function laneFor(lanes, top, bottom, most) {
    let lane = lanes.findIndex(end => end < top);
    if (lane < 0) lane = lanes.length < most ? lanes.length : lanes.indexOf(Math.min(...lanes));
    lanes[lane] = bottom + SIZE.lane;
    return lane;
}

/** The arrow of one taking of a message, or of a message that was never taken. */
function arrowOf(message, line, kind) {
    const from = nodeAt(message.sent);
    const to = line ? nodeAt(line) : placeOf.get(message.receiver);
    if (to === undefined || !plan.shown.has(from) || !plan.shown.has(to)) return;
    const top = plan.middle[message.sent], bottom = line ? plan.middle[line] : top;
    const lane = line ? laneFor(plan.lanes[to], top, bottom, SIZE.lanes) : 0;
    plan.arrows.push({message, kind, from, to, top, bottom, lane});
}

function arrangeArrows() {
    plan.arrows = [];
    plan.lanes = data.nodes.map(() => []);
    for (const message of data.messages) {
        if (!message.takings.length) arrowOf(message, 0, "lost");
        for (const [line, kind] of message.takings) arrowOf(message, line, kind);
    }
}

/** The bars of shown nodes, in lanes; the bars of a node that begin first have the first lanes. */
function arrangeBars() {
    const lanes = data.nodes.map(() => []);
    plan.bars = data.bars.map((item, place) => ({item, place})).filter(({item}) => plan.shown.has(item.node));
    plan.bars.sort((one, other) => one.item.from - other.item.from);
    for (const bar of plan.bars) {
        bar.top = plan.middle[bar.item.from];
        bar.bottom = bar.item.to ? plan.middle[bar.item.to] : plan.height;
        bar.lane = laneFor(lanes[bar.item.node], bar.top, bar.bottom, Infinity);
    }
    return lanes.map(ends => ends.length);
}

/** How many letters the longest line of each node has, within bounds. */
function letters() {
    const found = data.nodes.map(() => SIZE.least);
    for (const {node, first, count} of plan.rows) {
        for (let line = first; line < first + count; line++) {
            const tag = data.tags[line];
            found[node] = Math.max(found[node], data.texts[line - 1].length + (tag ? tag.length + 2 : 0));
        }
    }
    return found.map(count => Math.min(count, SIZE.most));
}

/** A column from `left` on: its box, the edge where arrows begin and end, the way that edge looks, and its right end. */
function columnAt(left, place, count, barLanes) {
    const isClient = data.nodes[place][0][0] === "c";
    const width = count * SIZE.letter + 2 * SIZE.pad + 4;
    const gutter = SIZE.arm + plan.lanes[place].length * SIZE.lane + SIZE.edge;
    const bars = barLanes * SIZE.bar + SIZE.space + SIZE.edge;
    const box = left + (isClient ? bars : gutter);
    return {place, left, box, width, letters: count, facing: isClient ? 1 : -1, edge: isClient ? box + width : box,
        right: left + width + gutter + bars};
}

function arrangeColumns(barLanes) {
    const counts = letters();
    let left = SIZE.edge;
    plan.columns = data.nodes.map((_, place) => {
        if (!plan.shown.has(place)) return null;
        const column = columnAt(left, place, counts[place], barLanes[place]);
        left = column.right + SIZE.edge;
        return column;
    });
    plan.width = left;
}

/** Of things in order of their tops the place of the first that doesn't stand above this height. */
function firstFrom(sorted, height) {
    let low = 0, high = sorted.length;
    while (low < high) {
        const middle = (low + high) >> 1;
        if (sorted[middle].top < height) low = middle + 1; else high = middle;
    }
    return low;
}

/** The heights at which arrows cross a bar, in order. */
function crossings(bar) {
    const column = plan.columns[bar.item.node], middle = barAt(column, bar.lane) + SIZE.bar / 2, found = [];
    for (let place = firstFrom(plan.arrows, bar.top); place < plan.arrows.length && plan.arrows[place].top <= bar.bottom; place++) {
        const arrow = plan.arrows[place], from = startOf(arrow), to = laneAt(plan.columns[arrow.to], arrow.lane);
        if (Math.min(from, to) < middle && middle < Math.max(from, to)) found.push(arrow.top);
    }
    return found;
}

/** The heights where a label of this length begins on a bar: the first at its top and one after each stretch `again`, each as soon
 * as there is room between arrows, or across them where there is none for long. */
function labelPlaces(bar, length) {
    const places = [];
    let wanted = bar.top + 4, top = wanted;
    for (const height of [...crossings(bar), bar.bottom]) {
        for (;;) {
            const isFree = height - top >= length, isDue = top - wanted > SIZE.again / 2 && bar.bottom - wanted >= length;
            if (!isFree && !isDue) break;
            places.push(isFree ? top : wanted);
            wanted = places[places.length - 1] + SIZE.again;
            top = Math.max(top, wanted);
        }
        top = Math.max(top, height + 6);
    }
    return places.length ? places : [bar.top + 4];
}

/** A bar's label, cut to the bar, and where it begins. */
function arrangeLabel(bar) {
    const room = Math.floor((bar.bottom - bar.top - 6) / SIZE.small), {label} = bar.item;
    bar.label = room >= label.length ? label : room < 2 ? "" : room < 5 ? bar.item.mode : label.slice(0, room - 1) + "…";
    bar.places = bar.label ? labelPlaces(bar, bar.label.length * SIZE.small) : [];
}

/** Everything anew, for the nodes that are shown. */
function arrange() {
    arrangeRows();
    arrangeArrows();
    arrangeColumns(arrangeBars());
    plan.bars.forEach(arrangeLabel);
}

/** Where a lane of a column's gutter stands. */
function laneAt(column, lane) {
    return column.edge + column.facing * (SIZE.arm + lane * SIZE.lane);
}

/** Where an arrow begins: at the side of its sender's box that its lane is on. */
function startOf(arrow) {
    const {box, width} = plan.columns[arrow.from];
    return laneAt(plan.columns[arrow.to], arrow.lane) > box + width / 2 ? box + width : box;
}

/** The left side of a bar. */
function barAt(column, lane) {
    const outer = column.facing > 0 ? column.box - SIZE.space - SIZE.bar : column.box + column.width + SIZE.space;
    return outer - column.facing * lane * SIZE.bar;
}
