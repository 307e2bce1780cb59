"""Trace texts as terms of antt. `Terms` writes them in the short words of lu_spec_laws, `proofs/Words.antt`; another proof crate's words are
a class of their own over it.

A word of a trace that isn't read raises ValueError, KeyError or IndexError."""
import re
import textwrap

PATHS = ("lookup", "stat", "list", "layout", "mkdir", "unlink", "rmdir")
FROM_CLIENT = ("req", "replay", "cancel", "where", "lock", "word", "join", "size")
FROM_TARGET = ("up", "reply", "grant", "block", "ask", "ready", "evicted")


def items(texts):
    """a list"""
    texts = list(texts)
    return "(" + " ∷ ".join(texts + ["[]"]) + ")" if texts else "[]"


def halves(text):
    """the two halves of a number, with a space between"""
    high, low = text.split(".")
    return f"{int(high)} {int(low)}"


def data(text):
    if text == "-":
        return "[]"
    if "*" in text:
        byte, count = text.split("*")
        return f"(replicate {count} {int(byte, 16)})"
    return items(str(int(text[i:i + 2], 16)) for i in range(0, len(text), 2))


def whole(text):
    return f"(negsuc {-int(text) - 1})" if text[0] == "-" else f"(pos {text})"


def known(kind, kinds):
    """the kind of a message, where it is one of these"""
    if kind not in kinds:
        raise ValueError("message " + kind)
    return kind


def tagged(text):
    """a request's number and tag"""
    number, tag = (text.split("/") + ["0"])[:2]
    return f"{number} {tag}"


class Terms:
    # the words of numbers, ranges, layouts and locks
    pair, txn_word, extent_word, onward, striped = "number", "txn_of", "extent {} {}", "onward {}", "striped"
    on_inode = "lock {cookie} {life} {place} PR (Bits {bits})"
    client_turn, target_turn = "(turn {stamp} (Client {place}))", "(turn {stamp} (Target {place}))"
    # a name, and from which length on one of equal letters is written as such
    codes, repeated, long = 'codes "{}"', "replicate {} {}", 40
    # what stands before the variants' names
    answers, errnos, modes, policies = "told.", "", "", ""
    # the words of messages
    request, replay, lock_again, size = "asks", "replays", "hands_in", "reports"
    reply, grant, ask = "replies", "grants", "glimpses"

    # ---- values

    def fid(self, text):
        return f"(fid {halves(text)})"

    def txn(self, text):
        return f"({self.txn_word} {halves(text)})"

    def cookie(self, text):
        return f"(cookie {halves(text)})"

    def life(self, text):
        return f"(life {halves(text[1:])})"

    def numbers(self, text):
        return "[]" if text == "-" else items(f"{self.pair} {halves(word)}" for word in text.split(","))

    def name(self, text):
        if len(text) > self.long and len(set(text)) == 1:
            return self.repeated.format(len(text), ord(text[0]))
        return self.codes.format(text)

    def path(self, text):
        return items(self.name(word) for word in text.split("/") if word)

    def extent(self, text):
        first, last = text.split("-")
        return f"({self.onward.format(first) if last == 'end' else self.extent_word.format(first, last)})"

    def resource(self, text):
        number, stripe = (text.split("/") + ["0"])[:2]
        return f"(object {halves(number)} {stripe})"

    def layout(self, text):
        size, targets = text.split(":")
        return f"({self.striped} {size} {items(targets.split(','))})"

    def policy(self, text):
        return f"({self.policies}Range {self.extent(text)})" if "-" in text else f"({self.policies}Bits {text})"

    def lock(self, number, who, where, mode, what):
        return f"(lock {self.cookie(number)} {self.life(who)} {self.resource(where)} {self.modes}{mode} {self.policy(what)})"

    def locks(self, text, who):
        """the locks of a reply"""
        if text == "-":
            return "[]"
        parts = [word.split(":") for word in text.split(",")]
        return items(self.on_inode.format(cookie=self.cookie(part[0]), life=self.life(who), place=self.resource(part[1]),
                                          fid=self.fid(part[1]), bits=part[2]) for part in parts)

    def node(self, text):
        return f"({'Client' if text[0] == 'c' else 'Target'} {text[1:]})"

    def turn(self, text):
        stamp, place = text.split(":")
        return (self.client_turn if place[0] == "c" else self.target_turn).format(stamp=stamp, place=place[1:])

    # ---- calls, operations, answers

    def on_names(self, words, form):
        """a call or an operation on names"""
        kind = words[0]
        if kind in PATHS:
            return f"({form}.{kind.capitalize()} {self.path(words[1])})"
        if kind in ("link", "rename"):
            return f"({form}.{kind.capitalize()} {self.path(words[1])} {self.path(words[2])})"
        if kind == "chmod":
            return f"({form}.Chmod {self.path(words[1])} {int(words[2], 8)})"
        raise ValueError(f"{form} {kind}")

    def call(self, words):
        kind = words[0]
        if kind == "create":
            stripes = f"(Some ({words[2]}, {whole(words[3])}))" if len(words) > 2 else "None"
            return f"(call.Create {self.path(words[1])} {stripes})"
        if kind == "open":
            return f"(call.Open {words[1]} {self.path(words[2])})"
        if kind in ("close", "flush", "glimpse"):
            return f"(call.{kind.capitalize()} {words[1]})"
        if kind in ("read", "cut"):
            return f"(call.{kind.capitalize()} {' '.join(words[1:])})"
        if kind == "write":
            return f"(call.Write {words[1]} {words[2]} {data(words[3])})"
        return self.on_names(words, "call")

    def operation(self, words):
        kind = words[0]
        if kind == "open":
            return f"(op.Open {self.path(words[1])})"
        if kind == "create":
            return f"(op.Create {self.path(words[1])} {words[2]} {whole(words[3])})"
        if kind == "close":
            return f"(op.Close {self.txn(words[1])} {self.fid(words[2])})"
        if kind == "enqueue":
            return f"(op.Enqueue {self.resource(words[1])} {self.modes}{words[2]} {self.extent(words[3])})"
        if kind == "get":
            return f"(op.Get {self.resource(words[1])} {self.cookie(words[2])} {words[3]})"
        if kind == "put":
            return f"(op.Put {self.resource(words[1])} {self.cookie(words[2])} {words[3]} {data(words[4])})"
        if kind == "cut":
            return f"(op.Cut {self.resource(words[1])} {self.cookie(words[2])} {words[3]})"
        if kind == "size":
            return f"(op.Size {self.resource(words[1])})"
        return self.on_names(words, "op")

    def of_inode(self, words):
        """the answer to a `lookup` or `stat`"""
        kind = words[0].capitalize()
        if len(words) == 2:
            return f"({self.answers}{kind} {self.fid(words[1])})"
        front = f"{self.fid(words[1])} {int(words[2], 8)}"
        if kind == "Dir":
            return f"({self.answers}DirStat {front})"
        if ":" in words[4]:
            return f"({self.answers}FileStat {front} {words[3]} {self.layout(words[4])})"
        return f"({self.answers}FileSize {front} {words[3]} {words[4]})"

    def answer(self, words):
        kind, form = words[0], self.answers
        if kind == "ok":
            return f"{form}Done" if len(words) == 1 else f"({form}Made {self.fid(words[1])})"
        if kind in ("dir", "file"):
            return self.of_inode(words)
        if kind == "names":
            return f"({form}Names {items(self.name(word) for word in words[2:])})"
        if kind == "layout":
            return f"({form}Layout {self.layout(words[1])})"
        if kind == "open":
            return f"({form}OpenFile {self.fid(words[1])} {self.txn(words[2])} {self.layout(words[3])})"
        if kind == "granted":
            return f"({form}Granted {self.cookie(words[1])} {self.extent(words[2])} {words[3]})"
        if kind == "waiting":
            return f"({form}Waiting {self.cookie(words[1])})"
        if kind == "content":
            return f"({form}Content {data(words[1])})"
        if kind == "size":
            return f"({form}Size {words[1]})"
        if kind in ("lock", "uncovered"):
            return f"{form}{kind.capitalize()}"
        if kind == "sizes":
            return f"({form}Sizes {'[]' if words[1] == '-' else items(words[1].split(','))})"
        if kind[0] == "E":
            return f"({form}Refused {self.errnos}{kind})"
        raise ValueError("answer " + kind)

    # ---- messages

    def from_client(self, words, stamp):
        """a message that a client sent in the turn of this stamp"""
        kind = known(words[0], FROM_CLIENT)
        front = f"{self.life(words[1])} {words[2]}"
        if kind == "req":
            return f"({self.request} {front} {tagged(words[3])} {self.operation(words[4:])})"
        if kind == "replay":
            tail = f"{self.txn(words[3])} {tagged(words[4])} {self.numbers(words[5])} {self.operation(words[6:])}"
            return f"({self.replay} {front} {tail})"
        if kind in ("cancel", "where"):
            return f"(message.{kind.capitalize()} {front} {self.cookie(words[3])})"
        if kind == "lock":
            tail = f"{self.cookie(words[3])} {self.resource(words[4])} {self.modes}{words[5]} {self.policy(words[6])}"
            return f"({self.lock_again} {front} {tail})"
        if kind == "word":
            return f"(message.Word {front} {words[3]} {words[4]} {self.numbers(words[5])})"
        if kind == "join":
            return f"(message.Join {front})"
        found = "None" if words[6] == "-" else f"(Some {words[6]})"
        return f"({self.size} {front} {self.cookie(words[3])} {self.life(words[4])} {words[5]} {found} {stamp})"

    def from_target(self, words):
        kind = known(words[0], FROM_TARGET)
        if kind == "up":
            return f"(message.Up {words[1]})"
        front = f"{self.life(words[1])} {words[2]}"
        if kind == "reply":
            head = f"{front} {words[3]} {self.txn(words[4])} {self.txn(words[5])} {self.numbers(words[6])}"
            return f"({self.reply} {head} {self.turn(words[7])} {self.locks(words[8], words[1])} {self.answer(words[9:])})"
        if kind == "grant":
            tail = f"{self.extent(words[4])} {words[5]} {self.txn(words[6])} {self.numbers(words[7])}"
            return f"({self.grant} {front} {self.cookie(words[3])} {tail})"
        if kind == "block":
            return f"(message.Block {front} {self.cookie(words[3])})"
        if kind == "ask":
            return f"({self.ask} {front} {self.cookie(words[3])} {self.life(words[4])} {words[5]})"
        if kind == "ready":
            return f"(message.Ready {front} {self.txn(words[3])})"
        return f"(message.Evicted {front})"

    # ---- entries and lines

    def of_client(self, words):
        """an entry that stands at clients alone"""
        kind = words[0]
        if kind == "begin":
            return f"(entry.Begin {words[1]} {self.call(words[2:])})"
        if kind == "heard":
            return f"(heard {words[1][1:]} {words[2]})"
        if kind in ("hold", "drop"):
            return f"({kind} {words[1][1:]} {self.cookie(words[2])})"
        if kind == "told":
            return f"(entry.Told {words[1]} {self.turn(words[2])} {self.answer(words[3:])})"
        if kind == "peek":
            return f"(peek {words[1][1:]} {self.cookie(words[2])} {words[3]})"
        if kind == "life":
            return f"(entry.Life {self.life(words[1])})"
        raise ValueError("entry " + kind)

    def of_target(self, words):
        """an entry that stands at targets alone"""
        kind = words[0]
        if kind == "act":
            return f"(acts {self.life(words[1])} {words[2]} {self.answer(words[3:])})"
        if kind == "txn":
            tail = f"{self.life(words[2])} {words[3]} {self.numbers(words[4])} {self.answer(words[5:])}"
            return f"(executes {self.txn(words[1])} {tail})"
        if kind in ("grant", "wait", "restore"):
            return f"(entry.{kind.capitalize()} {self.lock(*words[1:])})"
        if kind in ("block", "release"):
            return f"(entry.{kind.capitalize()} {self.cookie(words[1])})"
        if kind in ("commit", "kept"):
            return f"(entry.{kind.capitalize()} {self.txn(words[1])})"
        if kind in ("back", "joined"):
            return f"(entry.{kind.capitalize()} {self.life(words[1])})"
        if kind == "evict":
            return f"(entry.Evict {self.life(words[1])} {words[2].capitalize()})"
        raise ValueError("entry " + kind)

    def entry(self, words, stamp, sender):
        kind = words[0]
        if kind == "send":
            content = self.from_client(words[3:], stamp) if sender[0] == "c" else self.from_target(words[3:])
            return f"(sends {words[1]} {self.node(words[2])} {content})"
        if kind in ("busy", "take", "boot"):
            return f"(entry.{kind.capitalize()} {words[1]})"
        if kind in ("skip", "tick", "die", "crash", "close", "fail"):
            return f"entry.{kind.capitalize()}"
        return self.of_client(words) if sender[0] == "c" else self.of_target(words)

    def line(self, text):
        """a line of a trace"""
        stamp, place, *words = text.split()
        return f"{'client' if place[0] == 'c' else 'target'} {stamp} {place[1:]} {self.entry(words, stamp, place)}"


def read(text):
    """the lines of a trace in order, as terms, and its number of object storage targets"""
    terms = Terms()
    lines = []
    for row in text.split("\n"):
        words = row.split()
        if words and words[0] == "end":
            return lines, int(words[-1]) if words[-1].isdigit() else 1
        if words:
            lines.append(terms.line(row))
    raise ValueError("no end")


# ---- turns

def turns_of(trace):
    """of each node its turns, each a stamp and lines of words; and of each message its stamp, its sender and its words"""
    turns, sent = {}, {}
    now = None
    for text in trace.split("\n"):
        words = text.split()
        if not words or words[0] == "end":
            continue
        stamp, node, entry = words[0], words[1], words[2:]
        if entry[0] == "send":
            sent[entry[1]] = (stamp, node, entry[3:])
        if now != (stamp, node):
            turns.setdefault(node, []).append((stamp, []))
        turns[node][-1][1].append(entry)
        now = (stamp, node)
    return turns, sent


# ---- what a proof file of such terms brings in

IMPORTS = """Rattle.std.proofs.Common ◌≡◌ true false [] ◌∷◌ Some None refl pos negsuc
Rattle.std.specs.Prelude codes replicate
Rattle.lu_base.specs.declared.ids.Node.TheVariants Client Target
Rattle.lu_base.specs.declared.locks.Cause.TheVariants Absent Gap Expired Replaced
Rattle.lu_base.specs.declared.locks.Mode.TheVariants EX PW PR CW CR NL
Rattle.lu_base.specs.declared.locks.Policy.TheVariants Bits Range
Rattle.lu_msg.specs.declared.answers.Answer.TheVariants as told
Rattle.lu_msg.specs.declared.answers.Errno.TheVariants ENOENT EEXIST ENOTDIR EISDIR ENOTEMPTY EPERM EINVAL EBUSY EBADF ENAMETOOLONG EIO
Rattle.lu_msg.specs.declared.calls.Call.TheVariants as call
Rattle.lu_msg.specs.declared.messages.Message.TheVariants as message
Rattle.lu_msg.specs.declared.operations.Op.TheVariants as op
Rattle.lu_trace.specs.declared.entries.Entry.TheVariants as entry
Rattle.lu_spec_laws.specs.Words.Pasts Past
Rattle.lu_spec_laws.proofs.Words turn client target life number fid txn_of cookie extent onward object striped lock
Rattle.lu_spec_laws.proofs.Words asks replays hands_in reports replies grants glimpses
Rattle.lu_spec_laws.proofs.Words sends heard hold drop peek acts executes"""

SIGNS = {"◌≡◌": "≡", "◌∷◌": "∷", "[]": "[]"}


def imports_for(body, more=""):
    """the `use` lines of the words that are used; `more` has further modules with their words, a line each"""
    words = set(re.findall(r"(?<![.\w])\w+", re.sub(r'"[^"]*"|--[^\n]*', "", body)))
    lines = []
    for text in (IMPORTS + "\n" + more).split("\n"):
        if not text:
            continue
        module, *names = text.split()
        if names[0] == "as":
            if names[1] in words:
                lines.append(f"use {module} as {names[1]}")
            continue
        used = [one for one in names if (SIGNS[one] in body if one in SIGNS else one in words)]
        if used:
            lines.append(f"use {module}.{{{', '.join(used)}}}")
    return "\n".join(lines) + "\n"


def wrapped(text, indent):
    """a line of at most 120 characters, and what is left of it in lines that stand further in"""
    return textwrap.wrap(text, 120, initial_indent=" " * indent, subsequent_indent=" " * (indent + 4),
                         break_long_words=False, break_on_hyphens=False)


def past_of(title, lines):
    """the definition of a past: its lines as terms, the newest first"""
    rows = []
    for text in reversed(lines):
        rows += wrapped(text + " ∷", 4)
    return "\n".join([f"abbrev pub {title} : Past", f"{title} ="] + rows + ["    []", ""])
