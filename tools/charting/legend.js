"use strict";
// The legend: of the signs that this chart has, each as the chart draws it.

function sample(content, text) {
    return `<div class="sample"><svg width="64" height="26" viewBox="0 0 64 26">${content}</svg><span>${text}</span></div>`;
}

function boxSample(text) {
    return sample('<rect class="box" x="1" y="3" width="62" height="20" rx="3"/><text x="7" y="17"><tspan class="word answer">told</tspan> ok</text>', text);
}

function arrowSample(family, kind, text) {
    const end = kind === "lost" ? cross(54, 13) : arrowHead(60, 13, 1);
    return sample(`<g class="arrow ${family} ${kind}"><path class="line" d="M6,13H52"/><circle cx="6" cy="13" r="2.6"/>${end}</g>`, text);
}

function tagSample(tag, text) {
    return sample(`<rect class="tag" x="4" y="7" width="46" height="12" rx="5"/><text class="told" x="8" y="16.5">${tag}</text>`, text);
}

function barSample(style, text) {
    const over = style === "called" ? '<rect class="mode-PR" x="4" y="6" width="56" height="14"/><rect class="called" x="30" y="6" width="30" height="14"/>'
        : `<rect class="${style}" x="4" y="6" width="56" height="14"/>`;
    return sample(`<g class="bar">${over}</g>`, text);
}

function tintSample(kind, text) {
    return sample(`<rect class="tint ${kind}" x="0" y="2" width="64" height="22"/><g class="bar"><rect class="${kind}" x="4" y="6" width="14" height="14"/></g>`, text);
}

function chipSample(sign, word, text) {
    return sample(`<rect class="chip ${sign}" x="2" y="6" width="${word.length * SIZE.letter + 6}" height="14" rx="3"/>` +
        `<text x="5" y="17"><tspan class="word">${word}</tspan></text>`, text);
}

/** What the chart has: families of messages, tags of lines, kinds and states of bars, first words of entries. */
function signsOfChart() {
    const signs = new Set(Object.values(data.tags).map(tag => `tag ${tag}`));
    for (const {family} of data.messages) signs.add(`message ${family}`);
    for (const {kind, mode, from, granted, blocked} of data.bars) {
        signs.add(`bar ${kind}`).add(`mode ${mode}`);
        if (granted !== from) signs.add("bar waits");
        if (blocked) signs.add("bar called back");
    }
    for (const line of Object.keys(data.signs)) signs.add(`word ${data.raws[line - 1].split(" ")[2]}`);
    return signs;
}

const MODES = {PR: "protected read", PW: "protected write", EX: "exclusive", CW: "concurrent write", CR: "concurrent read", NL: "null"};

/** Each sample with the signs for any of which it stands. */
function samples() {
    const modes = Object.entries(MODES).map(([mode, name]) => [[`mode ${mode}`],
        barSample(`mode-${mode}`, `a ${mode} lock (${name}), from grant to release; at its client, while held`)]);
    return [
        [["message request"], arrowSample("request", "taken", "a request or a reply, from its sending to its taking")],
        [["message lock"], arrowSample("lock", "taken", "of locks: block (a callback), cancel, grant, where; of glimpses: ask, size")],
        [["message recovery"], arrowSample("recovery", "taken", "of recovery: up, replay, lock, word, ready, evicted, join")],
        [["message other"], arrowSample("other", "taken", "a message of another kind")],
        [["tag never taken"], arrowSample("request", "lost", "never taken: lost, or its node was down or dead, or the run ended")],
        [["tag late"], arrowSample("request", "late", "late: its node took one before that was sent after it")],
        [["tag again"], arrowSample("request", "again", "a message that was taken already is taken again")],
        [["tag resent"], tagSample("resent", "the same was sent before")],
        ...modes,
        [["bar waits"], barSample("mode-PR waiting", "a lock that waits to be granted")],
        [["bar called back"], barSample("called", "striped from where it is called back")],
        [["bar recovery"], tintSample("recovery", "the target recovers, from its boot to its close")],
        [["bar down", "bar dead", "bar failed"], tintSample("down", "the target is down or its disk has failed, or the client is dead")],
        [["word commit"], chipSample("commit", "commit", "what is on the disk from now on")],
        [["word boot", "word close"], chipSample("recovery", "boot", "a target starts anew, or closes its recovery window")],
        [["word crash", "word die"], chipSample("down", "crash", "a target crashes, or a client dies")],
        [["word evict", "word fail"], chipSample("loss", "evict", "a life of a client is evicted, or a disk fails")],
        [["word life", "word joined"], chipSample("life", "life", "a client's new life begins, or has joined")],
    ];
}

function buildLegend() {
    const signs = signsOfChart();
    const shown = samples().filter(([names]) => names.some(name => signs.has(name))).map(([, text]) => text);
    part("samples").innerHTML = boxSample("what a node did in a turn; the turn's number stands at the left") + shown.join("") +
        "<p>The boxes have the words of the trace, shortened. Point at a box, an arrow or a bar to see its lines of the trace whole, with " +
        "their numbers; click to keep them on the screen.</p>";
}
