#!/usr/bin/env python3
"""claims_client.py [--most N] [--agree] [--about TEXT] NAME.scene[:CLIENT] ..: prints a proof file of claims.

For each scenario, with its trace in NAME.trace beside it, and for each of its clients (or the one that is named), a claim
says that the events of that client (calls, messages with what they say, ticks, its death), played on the definitions of
lu_spec_client, print exactly the client's lines of the trace, turn by turn. Each is proved by computing: `refl`. A claim has
the name of its scenario and client; the comment lines at the head of the scenario stand above it.

`--most N` passes over claims of more than N turns. With `--agree` each claim says instead that the fields over the client's
past say what its own entries made of it. `--about` gives the comment at the head of the file. Scenarios with words that the
script doesn't read are counted, with the reason. The words of the claims are those of lu_proof_examples, `proofs/Clients/Words.antt`."""
import os
import re
import sys
import traces


class Words(traces.Terms):
    """the words of lu_proof_examples, `proofs/Clients/Words.antt`"""
    pair, txn_word, onward = "pair", "txn", "extent {} the_end"
    on_inode = "on_inode {life} {cookie} {fid} {bits}"
    client_turn, target_turn = "(client {stamp} {place})", "(target {stamp} {place})"
    long = 64
    answers, errnos, modes, policies = "answer.", "errno.", "mode.", "policy."
    reply, grant, ask = "reply", "grant", "ask"


terms = Words()


def rows(texts):
    """A list, one item a line."""
    return "      (" + "".join(text + "\n      ∷ " for text in texts) + "[])"


def sent(to, words, stamp):
    """A message that the client sends, as it is printed."""
    kind = words[0]
    front = f"{to[1:]} {terms.life(words[1])} {words[2]}"
    if kind in ("cancel", "where"):
        return f"{'cancels' if kind == 'cancel' else 'asks_where'} {front} {terms.cookie(words[3])}"
    if kind == "word":
        return f"says {front} {words[3]} {words[4]} {terms.numbers(words[5])}"
    if kind == "join":
        return f"joins {front}"
    word, tail = terms.from_client(words, stamp)[1:-1].split(" ", 1)
    return f"{'replays_lock' if word == terms.lock_again else word} {to[1:]} {tail}"


def line(entry, stamp):
    kind = entry[0]
    if kind in ("busy", "take"):
        return f"entry.{kind.capitalize()} {entry[1]}"
    if kind == "send":
        return sent(entry[2], entry[3:], stamp)
    if kind in ("die", "tick"):
        return f"entry.{kind.capitalize()}"
    return terms.of_client(entry)[1:-1]


def event(entry, stamp, messages):
    kind = entry[0]
    if kind == "begin":
        return f"begins {stamp} {entry[1]} {terms.call(entry[2:])}"
    if kind == "busy":
        return f"begins {stamp} {entry[1]} (call.Flush 0)"
    if kind == "take":
        _, sender, words = messages[entry[1]]
        return f"comes {stamp} {entry[1]} {sender[1:]} {terms.from_target(words)}"
    if kind in ("tick", "die"):
        return f"{kind}s {stamp}"
    raise ValueError("event " + kind)


def turns_of(trace, clients):
    """Each client's turns: what happens, and its lines."""
    turns, sent = traces.turns_of(trace)
    return {
        client: [(event(lines[0], stamp, sent), [line(words, stamp) for words in lines]) for stamp, lines in turns.get(f"c{client}", [])]
        for client in range(clients)
    }


HEADS = {"clients": 1, "osts": 1, "dirty": 1048576, "unused": 64, "flight": 1}


def head_of(scene):
    head = dict(HEADS)
    for text in scene.split("\n"):
        words = text.split()
        if len(words) == 2 and words[0] in head:
            head[words[0]] = int(words[1])
    return head


UNFOLDING = "unfolding stripe_of offset_of position_of greatest_end"


def claim(title, head, client, turns, agree):
    limits = f"(record {{ osts = {head['osts']}; flight = {head['flight']}; dirty = {head['dirty']}; unused = {head['unused']} }})"
    events = rows(what for what, _ in turns)
    if agree:
        return f"pub {title}_agrees :\n    Agrees {limits} {client}\n{events}\n{UNFOLDING}\n{title}_agrees = refl\n"
    lines = rows(traces.items(printed) for _, printed in turns)
    return f"pub {title} :\n    played {limits} {client}\n{events}\n    ≡\n{lines}\n{UNFOLDING}\n{title} = refl\n"


SHORT = ("pair fid txn cookie life client target extent object striped on_inode begins comes ticks dies reply grant ask asks cancels "
         "asks_where replays replays_lock says joins reports heard hold drop peek")

IMPORTS = f"""Rattle.std.proofs.Common ◌≡◌ [] ◌∷◌ Some None refl pos negsuc
Rattle.std.specs.Prelude codes replicate
Rattle.lu_base.specs.declared.locks.Mode.TheVariants as mode
Rattle.lu_base.specs.declared.locks.Policy.TheVariants as policy
Rattle.lu_layout.specs.Raid0 stripe_of offset_of position_of greatest_end
Rattle.lu_lock.specs.Growth the_end
Rattle.lu_msg.specs.declared.answers.Answer.TheVariants as answer
Rattle.lu_msg.specs.declared.answers.Errno.TheVariants as errno
Rattle.lu_msg.specs.declared.calls.Call.TheVariants as call
Rattle.lu_msg.specs.declared.messages.Message.TheVariants as message
Rattle.lu_msg.specs.declared.operations.Op.TheVariants as op
Rattle.lu_trace.specs.declared.entries.Entry.TheVariants as entry
Rattle.lu_spec_client.specs.Played played Agrees
Rattle.lu_proof_examples.proofs.Clients.Words {SHORT}"""

SIGNS = {"◌≡◌": "≡", "◌∷◌": "∷", "[]": "[]"}


def imports_for(body):
    """The imports of the names that the claims use."""
    words = set(re.findall(r"(?<![.\w])\w+", re.sub(r'"[^"]*"|--[^\n]*', "", body)))
    lines = []
    for text in IMPORTS.split("\n"):
        module, *names = text.split()
        if names[0] == "as":
            if names[1] in words:
                lines.append(f"use {module} as {names[1]}")
            continue
        used = [one for one in names if (SIGNS[one] in body if one in SIGNS else one in words)]
        if used:
            lines.append(f"use {module}.{{{', '.join(used)}}}")
    return "\n".join(lines) + "\n"


def comment_of(scene):
    """The comment lines at the head of a scenario, as comments of the proof file."""
    lines = []
    for text in scene.split("\n"):
        if not text.startswith("#"):
            break
        lines.append("--" + text[1:])
    return "".join(text + "\n" for text in lines)


def claims_of(word, agree):
    """The claims of one scenario: how many turns each has, and its text."""
    scene, _, only = word.partition(":")
    with open(scene) as text:
        said = text.read()
    head = head_of(said)
    with open(scene[:-6] + ".trace") as text:
        found = turns_of(text.read(), head["clients"])
    stem = os.path.basename(scene)[:-6].replace("-", "_").replace(".", "_")
    return [
        (len(turns), comment_of(said) + claim(f"{stem}_c{client}", head, client, turns, agree))
        for client, turns in found.items()
        if turns and only in ("", str(client))
    ]


def main(arguments):
    most = 10**9
    agree = False
    about = "what clients print in scenarios is what their traces have."
    while arguments and arguments[0].startswith("--"):
        option = arguments.pop(0)
        if option == "--agree":
            agree = True
        elif option == "--about":
            about = arguments.pop(0)
        elif option == "--most":
            most = int(arguments.pop(0))
        else:
            sys.exit(f"no such option: {option}")
    claims = []
    unread = {}
    for word in arguments:
        try:
            claims += claims_of(word, agree)
        except (ValueError, KeyError, IndexError, OSError) as why:
            unread[word] = repr(why)
    body = "\n".join(text for turns, text in claims if turns <= most)
    print("-- Computed: " + about)
    print(imports_for(body))
    print(body, end="")
    kept = sum(turns <= most for turns, _ in claims)
    sys.stderr.write(f"{kept} claims; {len(claims) - kept} of too many turns; {len(unread)} scenarios that aren't read\n")
    for word, why in unread.items():
        sys.stderr.write(f"  {word}: {why}\n")


if __name__ == "__main__":
    main(sys.argv[1:])
