#!/usr/bin/env python3
"""Turns of targets, as a trace shows them, written as claims on the rows of `lu_spec_target`.

    tools/claims_target.py [--most N] [--least N] [--only tT] NAME.scene ..

Of each NAME.scene, with NAME.trace beside it, each target's events and printed lines become one claim, that the rows give
these lines; it is proved by computing (`refl`). The proof file is written to standard output; it stands on the words of
`lu_proof_examples` (`proofs/Targets/Words.antt`). A comment in a scenario's first lines (`# ..`) is put before its claims. Claims
of more turns than `--most`, or fewer than `--least`, are left out. A trace with entries that the rows don't have is passed
over; standard error says how many were, and why."""
import os
import re
import sys
import textwrap
import traces

HEAD = """use Rattle.std.proofs.Common.{◌≡◌, List, [], ◌∷◌, Some, None, refl, pos, negsuc}
use Rattle.std.specs.Prelude.{codes, replicate}
use Rattle.lu_base.specs.declared.locks.Cause.TheVariants.{Absent, Gap, Expired, Replaced}
use Rattle.lu_base.specs.declared.locks.Mode.TheVariants.{PR, PW}
use Rattle.lu_base.specs.declared.locks.Policy.TheVariants.{Bits, Range}
use Rattle.lu_msg.specs.declared.answers.Answer.TheVariants as answer
use Rattle.lu_msg.specs.declared.answers.Errno.TheVariants as errno
use Rattle.lu_msg.specs.declared.messages.Message.TheVariants as message
use Rattle.lu_msg.specs.declared.operations.Op.TheVariants as op
use Rattle.lu_trace.specs.declared.entries.Entry.TheVariants as entry
use Rattle.lu_spec_target.specs.Rows.{Ticks, Commits, Crashes, Boots, Closes}
use Rattle.lu_proof_examples.proofs.Targets.Words.{pair, fid, txn, cookie, life, client_turn, target_turn, object, from, onward, layout, lock, bits}
use Rattle.lu_proof_examples.proofs.Targets.Words.{request, replay, lock_again, size, reply, grant, ask, send, act, transaction, comes, Turn, made}
use Rattle.lu_proof_examples.proofs.Targets.Words.{all_lines, played}
"""



class Words(traces.Terms):
    """the words of `lu_proof_examples`, `proofs/Targets/Words.antt`"""
    pair, txn_word, extent_word, striped = "pair", "txn", "from {} {}", "layout"
    on_inode = "bits {cookie} {life} {fid} {bits}"
    client_turn, target_turn = "(client_turn {place} {stamp})", "(target_turn {place} {stamp})"
    codes, repeated = '(codes "{}")', "(replicate {} {})"
    answers, errnos = "answer.", "errno."
    request, replay, lock_again, size = "request", "replay", "lock_again", "size"
    reply, grant, ask = "reply", "grant", "ask"

    def lock(self, number, who, where, mode, what):
        if "-" not in what and mode == "PR":
            return f"(bits {self.cookie(number)} {self.life(who)} {self.fid(where)} {what})"
        return super().lock(number, who, where, mode, what)


terms = Words()


# ---- lines and events

def message(words, stamp):
    """a message that was sent in the turn of this stamp; that of one kind tells which side sent it"""
    return terms.from_client(words, stamp) if words[0] in traces.FROM_CLIENT else terms.from_target(words)


def line(stamp, words):
    kind = words[0]
    if kind == "take":
        return f"entry.Take {words[1]}"
    if kind == "send":
        return f"send {words[2][1:]} {message(words[3:], stamp)}"
    if kind in ("skip", "tick", "crash", "close", "fail"):
        return f"entry.{kind.capitalize()}"
    if kind == "act":
        return f"act {terms.life(words[1])} {words[2]} {terms.answer(words[3:])}"
    if kind == "txn":
        tail = f"{terms.numbers(words[4])} {terms.answer(words[5:])}"
        return f"transaction {terms.txn(words[1])} {terms.life(words[2])} {words[3]} {tail}"
    if kind == "boot":
        return f"entry.Boot {words[1]}"
    return terms.of_target(words)[1:-1]


def commands(scene):
    """of each target its commands and ticks in order, since a line `skip` doesn't tell which of them it was"""
    found = {}
    for text in scene.split("\n"):
        words = text.split()
        if len(words) > 1 and words[0] in ("commit", "crash", "boot", "close", "tick") and words[1][0] == "t":
            found.setdefault(words[1], []).append(words)
    return found


def event(words, sent, due):
    if words[0] == "take":
        stamp, sender, content = sent[words[1]]
        return f"(comes {words[1]} {sender[1:]} {message(content, stamp)})"
    command = due.pop(0)
    if command[0] == "tick":
        return "Ticks"
    if command[0] == "commit":
        return f"(Commits {'(Some ' + command[2] + ')' if len(command) > 2 else 'None'})"
    return {"crash": "Crashes", "boot": "Boots", "close": "Closes"}[command[0]]


def head_of(scene):
    head = dict(clients=1, osts=1, expire=8)
    for text in scene.split("\n"):
        words = text.split()
        if len(words) == 2 and words[0] in head:
            head[words[0]] = int(words[1])
    return head


def claims_of(scene, trace):
    """of each target that has a turn: its number, the head of the run, and its turns as texts"""
    head = head_of(scene)
    turns, sent = traces.turns_of(trace)
    due = commands(scene)
    claims = []
    for target in range(head["osts"] + 1):
        left, mine = due.get(f"t{target}", []), turns.get(f"t{target}", [])
        made = [(stamp, event(entries[0], sent, left), [line(stamp, words) for words in entries]) for stamp, entries in mine]
        if made:
            claims.append((target, head, made))
    return claims


def remarks(scene):
    """the comment at the head of a scenario"""
    found = []
    for text in scene.split("\n"):
        if not text.startswith("#"):
            break
        found.extend(textwrap.wrap(text[1:].strip(), 150, initial_indent="-- ", subsequent_indent="-- "))
    return found


def wrapped(text, indent):
    """a line of at most 150 characters, and what is left of it in lines that stand further in"""
    return textwrap.wrap(text, 150, initial_indent=" " * indent, subsequent_indent=" " * (indent + 4),
                         break_long_words=False, break_on_hyphens=False)


def written(title, target, head, turns):
    """a claim as text"""
    rows = []
    for stamp, event_text, lines in turns:
        rows.extend(wrapped(f"made {stamp} {event_text} (", 4))
        for text in lines:
            rows.extend(wrapped(f"{text} ∷", 8))
        rows.append("        []) ∷")
    play = f"played {target} {head['clients']} {head['osts']} {head['expire']} {title}_turns ≡ all_lines {title}_turns"
    return "\n".join([f"abbrev {title}_turns : List Turn", f"{title}_turns ="] + rows
                     + ["    []", "", f"pub {title} : {play}", f"{title} = refl", ""])


def title_of(file, target):
    return re.sub(r"[^a-z0-9]", "_", os.path.basename(file)[:-6].lower()) + f"_target_{target}"


def main(words):
    most, least, only = 10 ** 9, 1, None
    while words and words[0].startswith("--"):
        if words[0] == "--most":
            most = int(words[1])
        elif words[0] == "--least":
            least = int(words[1])
        elif words[0] == "--only":
            only = int(words[1][1:])
        else:
            sys.exit(__doc__)
        words = words[2:]
    print(HEAD)
    count = turns_in_all = 0
    passed = {}
    for file in words:
        with open(file) as held:
            scene = held.read()
        with open(file[:-6] + ".trace") as held:
            trace = held.read()
        try:
            found = claims_of(scene, trace)
        except ValueError as reason:
            passed[str(reason)] = passed.get(str(reason), 0) + 1
            continue
        for target, head, turns in found:
            if not least <= len(turns) <= most or only not in (None, target):
                continue
            count += 1
            turns_in_all += len(turns)
            for text in remarks(scene):
                print(text)
            print(written(title_of(file, target), target, head, turns))
    sys.stderr.write(f"{count} claims, {turns_in_all} turns; passed over: {passed}\n")


if __name__ == "__main__":
    main(sys.argv[1:])
