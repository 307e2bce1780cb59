"""Writes a chart as one page: HTML with its style, its script and all that it shows, and nothing from outside."""
import html
import json
import os
import re
from . import model, reading, wording

HERE = os.path.dirname(os.path.abspath(__file__))
SCRIPTS = ("layout.js", "draw.js", "legend.js", "act.js")
TAGS = {"late": "late", "again": "again"}
EVENTS = ("crash", "boot", "close", "evict", "die", "fail", "life")
ROLES = {"c": "client", "t": "object storage target"}


def role_of(node):
    """What a node is."""
    return "metadata target" if node == "t0" else ROLES[node[0]]


def counted(number, one, many=None):
    """A number and the noun that fits it."""
    return f"{number} {one if number == 1 else many or one + 's'}"


def summary_of(chart):
    """What the trace has, in a line."""
    states = [message.state for message in chart.messages]
    late = sum(1 for message in chart.messages if message.takings and message.takings[0].kind == "late")
    parts = [counted(len(chart.trace.turns), "turn"), counted(len(states), "message"),
             f"{states.count('lost')} never taken", f"{late} late", f"{states.count('repeated')} taken again",
             counted(len(chart.locks), "lock"), chart.trace.outcome]
    return " · ".join(parts)


# ---- the parts of the page's data

def turn_data(turns, places):
    """Of each turn its stamp, its node's place, its first line's number and how many lines it has."""
    return [[turn.stamp, places[turn.node], turn.lines[0].number, len(turn.lines)] for turn in turns]


def text_data(chart):
    """The short text of each line."""
    messages = {}
    for message in chart.messages:
        messages[message.sent.number] = message
        messages.update((taking.line.number, message) for taking in message.takings)
    return [wording.entry_text(line, messages.get(line.number)) for line in chart.trace.lines]


def tag_data(chart):
    """Of some lines a word that says what became of its message, by the line's number."""
    tags = {line.number: "never sent" for line in chart.unsent}
    for message in chart.messages:
        if not message.takings:
            tags[message.sent.number] = "never taken"
        elif message.first:
            tags[message.sent.number] = "resent"
        tags.update((taking.line.number, TAGS[taking.kind]) for taking in message.takings if taking.kind in TAGS)
    return tags


def sign_data(lines):
    """Of some lines the sign of its first word, by the line's number."""
    return {line.number: wording.SIGNS[line.word] for line in lines if line.word in wording.SIGNS}


def message_data(chart):
    """The messages, each with the lines that send and take it."""
    return [{"number": message.number, "family": wording.family(message.words), "state": message.state,
             "sent": message.sent.number, "receiver": message.receiver, "resent": bool(message.first),
             "takings": [[taking.line.number, taking.kind] for taking in message.takings]} for message in chart.messages]


def number_of(line):
    """A line's number; 0 where there is none."""
    return line.number if line else 0


def fate_of(lock):
    """What became of a lock, in words."""
    steps = [("waits from turn", lock.waited), ("granted in turn", lock.granted), ("called back in turn", lock.blocked)]
    told = [f"{what} {line.stamp}" for what, line in steps if line]
    told.append(f"{lock.end} in turn {lock.ended.stamp}" if lock.ended else "kept to the end of the trace")
    return ", ".join(told)


def lock_bar(lock, places):
    """A lock as a bar at its target."""
    return {"kind": "lock", "node": places[lock.target], "mode": lock.mode, "from": lock.begun.number,
            "granted": number_of(lock.granted), "blocked": number_of(lock.blocked), "to": number_of(lock.ended),
            "label": f"{wording.lock_text(lock)} {lock.life}", "lines": [line.number for line in lock.lines],
            "title": f"lock {lock.cookie} of {lock.target} for {lock.life}: {wording.lock_text(lock)}; {fate_of(lock)}"}


def hold_bar(hold, places):
    """A held lock as a bar at its client."""
    what = wording.lock_text(hold.lock) if hold.lock else "lock"
    until = f"to turn {hold.ended.stamp}" if hold.ended else "to the end of the trace"
    return {"kind": "hold", "node": places[hold.client], "mode": hold.lock.mode if hold.lock else "",
            "from": hold.begun.number, "granted": hold.begun.number, "blocked": 0, "to": number_of(hold.ended),
            "label": f"{what} {hold.target}", "lines": [line.number for line in hold.lines],
            "title": f"{hold.client} holds lock {hold.cookie} of {hold.target}: {what}; from turn {hold.begun.stamp} {until}"}


def span_bar(span, places):
    """A span as a bar at its node."""
    until = f"to turn {span.ended.stamp}" if span.ended else "to the end of the trace"
    return {"kind": span.kind, "node": places[span.node], "mode": "", "from": span.begun.number,
            "granted": span.begun.number, "blocked": 0, "to": number_of(span.ended), "label": span.label,
            "lines": [line.number for line in span.lines],
            "title": f"{span.node}: {span.label}; from turn {span.begun.stamp} {until}"}


def event_data(chart, tags):
    """The lines that one may want to go to: those of recovery, and those of messages that went amiss."""
    found = []
    for line in chart.trace.lines:
        if line.word in EVENTS:
            found.append([line.number, f"turn {line.stamp}: {line.node} {' '.join(line.words)}"])
        elif line.number in tags and tags[line.number] != "resent":
            found.append([line.number, f"turn {line.stamp}: {line.node} {line.word} {line.words[1]}, {tags[line.number]}"])
    return found


def data_of(chart, title):
    """All that the page's script draws."""
    places = {node: place for place, node in enumerate(chart.nodes)}
    lines, tags = chart.trace.lines, tag_data(chart)
    bars = [span_bar(span, places) for span in chart.spans] + [lock_bar(lock, places) for lock in chart.locks]
    return {"title": title, "nodes": [[node, role_of(node)] for node in chart.nodes],
            "turns": turn_data(chart.trace.turns, places), "raws": [line.text for line in lines], "texts": text_data(chart),
            "tags": tags, "signs": sign_data(lines), "messages": message_data(chart),
            "bars": bars + [hold_bar(hold, places) for hold in chart.holds], "events": event_data(chart, tags)}


# ---- the page

def part(name):
    """A file that stands beside this one."""
    with open(os.path.join(HERE, name), encoding="utf-8") as held:
        return held.read()


def page_of(text, title):
    """The page of the trace that has this text; `reading.NotATrace` where none has."""
    chart = model.chart_of(reading.read(text))
    data = json.dumps(data_of(chart, title), ensure_ascii=False, separators=(",", ":")).replace("<", "\\u003c")
    parts = {"title": html.escape(title), "summary": html.escape(summary_of(chart)), "style": part("page.css"),
             "script": "\n".join(part(name) for name in SCRIPTS), "data": data}
    return re.sub(r"\{\{(\w+)\}\}", lambda found: parts[found[1]], part("page.html"))
