"use strict";
// What the reader does: scrolls, points, picks, finds, goes to an event, leaves nodes out.

const AHEAD = 900;
const part = name => document.getElementById(name);
const drawn = {top: 0, bottom: -1};

// ---- what is on the screen

/** Draws anew where the screen has come to the end of what is drawn. */
function refresh(isForced) {
    const start = part("chart").getBoundingClientRect().top;
    const top = Math.max(0, -start), bottom = Math.min(plan.height, Math.max(0, window.innerHeight - start));
    if (!isForced && top >= drawn.top && bottom <= drawn.bottom) return;
    drawn.top = Math.max(0, top - AHEAD);
    drawn.bottom = Math.min(plan.height, bottom + AHEAD);
    part("chart").innerHTML = drawChart(drawn.top, drawn.bottom);
    part("axis").innerHTML = drawAxis(drawn.top, drawn.bottom);
    mark();
}

function rearrange() {
    arrange();
    for (const name of ["chart", "axis"]) part(name).style.height = plan.height + "px";
    part("chart").style.width = plan.width + "px";
    part("heads").innerHTML = drawHeads();
    part("heads").style.width = plan.width + 48 + "px";
    refresh(true);
}

// ---- pointing and picking

let picked = null;

/** The title and the lines of what has this `data-of`. */
function factsOf(name) {
    const [kind, number] = [name.split(" ")[0], Number(name.split(" ")[1])];
    if (kind === "bar") return [data.bars[number].title, data.bars[number].lines];
    if (kind === "turn") {
        const [stamp, node, first, count] = data.turns[number];
        return [`turn ${stamp} of ${data.nodes[node][0]}`, Array.from({length: count}, (_, place) => first + place)];
    }
    const message = messageAt.get(number);
    if (!message) return ["", [number]];
    const state = {lost: "never taken", taken: "taken", late: "taken late", repeated: "taken more than once"}[message.state];
    return [`message ${message.number}, ${state}${message.resent ? "; the same was sent before" : ""}`,
        [message.sent, ...message.takings.map(([line]) => line)]];
}

function written(name) {
    const [title, lines] = factsOf(name);
    const rows = lines.map(line => `line ${line}: ${escaped(data.raws[line - 1])}`);
    return (title ? `<b>${escaped(title)}</b>` : "") + `<pre>${rows.join("\n")}</pre>`;
}

function point(event) {
    const found = event.target.closest("[data-of]");
    part("tip").hidden = !found;
    if (!found) return;
    part("tip").innerHTML = written(found.dataset.of);
    const box = part("tip").getBoundingClientRect();
    part("tip").style.left = Math.max(4, Math.min(event.clientX + 14, window.innerWidth - box.width - 24)) + "px";
    const below = event.clientY + 18;
    part("tip").style.top = (below + box.height < window.innerHeight ? below : Math.max(4, event.clientY - box.height - 10)) + "px";
}

/** Shows what is picked: its arrow, its bar, its line; of a message all lines. */
function mark() {
    for (const one of document.querySelectorAll("#chart .picked")) one.classList.remove("picked");
    if (!picked) return;
    const [kind, number] = picked.split(" "), message = kind === "bar" || kind === "turn" ? null : messageAt.get(Number(number));
    const names = message ? [`message ${message.sent}`, ...factsOf(picked)[1].map(line => `line ${line}`)] : [picked];
    for (const name of names) {
        for (const one of document.querySelectorAll(`#chart [data-of="${name}"]`)) one.classList.add("picked");
    }
}

function pick(name) {
    picked = name;
    part("detail").hidden = !name;
    if (name) part("detail").innerHTML = `<button type="button">close</button>${written(name)}`;
    mark();
}

// ---- going somewhere

function goTo(line) {
    const start = part("chart").getBoundingClientRect();
    const column = plan.columns[nodeAt(line)];
    const aside = column ? start.left + column.box - 200 : 0;
    window.scrollBy(aside < 0 || (column && start.left + column.right > window.innerWidth) ? aside : 0,
        start.top + plan.middle[line] - window.innerHeight / 3);
    refresh(false);
    pick(`line ${line}`);
}

/** Goes to the next line after the last found one that has the text. */
function find() {
    const text = part("find").value.toLowerCase(), all = data.raws.length, last = find.last || 0;
    for (let step = 1; text && step <= all; step++) {
        const line = (last + step - 1) % all + 1;
        const has = data.raws[line - 1].toLowerCase().includes(text) || data.texts[line - 1].toLowerCase().includes(text);
        if (has && plan.shown.has(nodeAt(line))) {
            find.last = line;
            part("found").textContent = `line ${line}`;
            return goTo(line);
        }
    }
    part("found").textContent = text ? "not found" : "";
}

function show(place, isShown) {
    if (isShown) plan.shown.add(place); else plan.shown.delete(place);
    rearrange();
}

// ---- the beginning

function buildTools() {
    part("nodes").innerHTML = data.nodes.map(([name], place) =>
        `<label><input type="checkbox" checked value="${place}">${name}</label>`).join("");
    part("nodes").addEventListener("change", event => show(Number(event.target.value), event.target.checked));
    part("events").innerHTML = '<option value="">an event</option>' + data.events.map(([line, text]) =>
        `<option value="${line}">${escaped(text)}</option>`).join("");
    part("events").addEventListener("change", event => event.target.value && goTo(Number(event.target.value)));
    part("find").addEventListener("keydown", event => event.key === "Enter" && find());
}

function listen() {
    window.addEventListener("scroll", () => refresh(false), {passive: true});
    window.addEventListener("resize", () => refresh(true));
    window.addEventListener("toggle", () => refresh(false), true);
    part("chart").addEventListener("mousemove", point);
    part("chart").addEventListener("mouseleave", () => { part("tip").hidden = true; });
    part("chart").addEventListener("click", event => pick((event.target.closest("[data-of]") || {dataset: {}}).dataset.of || null));
    part("detail").addEventListener("click", event => event.target.closest("button") && pick(null));
}

index();
buildTools();
buildLegend();
listen();
rearrange();
