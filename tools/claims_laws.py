#!/usr/bin/env python3
"""Traces written as claims on the laws, each proved by computing.

    tools/claims_laws.py [--laws LAW,LAW..] [--about TEXT] NAME.trace ..

Without `--laws` a claim says that the trace is lawful by all laws; with it there is one claim for each law that is named
(`Messages`, `Locks` ..). The lines of a trace stand as a past, the newest first. The proof file is written to standard output; it stands
on the words of `lu_spec_laws`, `proofs/Words.antt`, and on the deciders in `proofs/Decides/`. The text of `--about` is its comment, and the
comment lines at the head of NAME.scene, where one stands beside, are that of the trace. A trace with words that aren't read is passed
over; standard error says which, and why."""
import os
import re
import sys
import traces

# of each law its parameters: the number of object storage targets, the lines of the whole trace
PARAMETERS = {"Messages": "", "Locks": "osts", "Silent": "", "Acts": "whole", "Recovery": "osts whole",
              "History": "osts whole", "Glimpse": "osts whole"}

STRIPING = "stripe_of offset_of position_of below_of greatest_end"

MORE = "\n".join(
    ["Rattle.lu_spec_laws.specs.Holds Holds", "Rattle.lu_spec_laws.specs.Lawful Lawful", "Rattle.lu_spec_laws.proofs.Decides says_yes holds",
     "Rattle.lu_spec_laws.proofs.Decides.Lawful decide_lawful", "Rattle.lu_layout.specs.Raid0 " + STRIPING]
    + [f"Rattle.lu_spec_laws.specs.Laws.{law} {law}\nRattle.lu_spec_laws.proofs.Decides.{law} decide_{law.lower()}" for law in PARAMETERS])


def title_of(file):
    return re.sub(r"[^a-z0-9]+", "_", os.path.basename(file).rsplit(".", 1)[0].lower())


def comment_of(file):
    """the comment lines at the head of a scenario, as comments of the proof file"""
    scene = file.rsplit(".", 1)[0] + ".scene"
    if not os.path.exists(scene):
        return ""
    with open(scene) as held:
        rows = held.read().split("\n")
    said = " ".join(row[1:].strip() for row in rows[:[row.startswith("#") for row in rows + [""]].index(False)])
    return "".join(f"-- {row}\n" for row in traces.textwrap.wrap(said, 115))


def claim(title, law, osts):
    past = f"{title}_past"
    if law is None:
        return f"pub {title} : Lawful {osts} {past}\nunfolding {STRIPING}\n{title} = says_yes (decide_lawful {osts} {past}) refl\n"
    given = PARAMETERS[law].replace("osts", str(osts)).replace("whole", past)
    law_of, decider = (f"({law} {given})", f"(decide_{law.lower()} {given})") if given else (law, f"decide_{law.lower()}")
    name = f"{title}_{law.lower()}"
    return f"pub {name} : Holds {law_of} {past}\nunfolding {STRIPING}\n{name} = says_yes (holds {decider} {past}) refl\n"


def main(words):
    laws, about, files = [None], "Traces that the laws allow, computed.", []
    while words:
        word = words.pop(0)
        if word == "--laws":
            laws = words.pop(0).split(",")
        elif word == "--about":
            about = words.pop(0)
        elif word.startswith("--"):
            sys.exit(__doc__)
        else:
            files.append(word)
    texts = []
    for file in files:
        with open(file) as held:
            text = held.read()
        try:
            lines, osts = traces.read(text)
        except (ValueError, KeyError, IndexError) as why:
            sys.stderr.write(f"passed over {file}: {why}\n")
            continue
        title = title_of(file)
        texts.append(comment_of(file) + traces.past_of(title + "_past", lines))
        texts += [claim(title, law, osts) for law in laws]
    body = "\n".join(texts)
    print("\n".join("-- " + row for row in traces.textwrap.wrap(about, 115)))
    print(traces.imports_for(body, MORE))
    print(body, end="")


if __name__ == "__main__":
    main(sys.argv[1:])
