"""What scripts know of the house: the crates of crates.txt by floors, and the parts of pages that a script writes."""
import dataclasses
import pathlib
import re

ROOT = pathlib.Path(__file__).resolve().parent.parent
CRATES = ROOT / "crates"
MOST_SAID = 90
PART = re.compile(r"(?ms)^<!-- tools/(\w+)(.*?) -->\n.*?^<!-- end -->$")


@dataclasses.dataclass(frozen=True)
class Crate:
    """A line of crates.txt, with the heading of its floor and the line of purpose above it."""

    name: str
    floor: str
    purpose: str
    stands_on: tuple


def crates():
    """The crates of crates.txt in their order. A line `## FLOOR` begins a floor, a line `# PURPOSE` belongs to the crate below it."""
    found, floor, purpose = [], "", ""
    for line in (ROOT / "crates.txt").read_text(encoding="utf-8").splitlines():
        name, _, libraries = line.partition("#")[0].partition(":")
        if line.startswith("## "):
            floor, purpose = line.removeprefix("## ").strip(), ""
        elif line.startswith("# "):
            purpose = line.removeprefix("# ").strip()
        elif name.strip():
            found.append(Crate(name.strip(), floor, purpose, tuple(libraries.split())))
            purpose = ""
        else:
            purpose = ""
    return found


def floors(some):
    """The floors of these crates in their order, each with its crates."""
    found = {}
    for crate in some:
        found.setdefault(crate.floor, []).append(crate)
    return found


def lines_of(file):
    """The lines of a file of the repository."""
    return file.read_text(encoding="utf-8").splitlines()


def said(file):
    """What a file says of itself in its first comment: the first sentence without its sources, or as much of it as fits."""
    heads = [line[3:].strip() for line in lines_of(file)[:6] if line.startswith(("-- ", "//!"))]
    plain = re.sub(r"\s*\([^()]*\)", "", " ".join(heads))
    sentence = re.split(r"(?<=\w)\. |(?<=.{25}): (?=.{60})", plain)[0].rstrip(".")
    return sentence if len(sentence) <= MOST_SAID else sentence[:MOST_SAID].rpartition(" ")[0].rstrip(",;:") + " .."


def parts(page, tool):
    """The parts of a page's text that this tool writes: of each the words behind the tool's name, and what stands there."""
    return [(found[2].split(), found[0]) for found in PART.finditer(page) if found[1] == tool]


def part(tool, words, printed):
    """A part of a page as it stands there."""
    return f"<!-- tools/{tool}{''.join(' ' + word for word in words)} -->\n{printed.rstrip()}\n\n<!-- end -->"


def rewritten(page, tool, printed):
    """The page's text with each part of this tool as it is printed now, from the words of the part."""

    def again(found):
        words = found[2].split()
        return part(tool, words, printed(words)) if found[1] == tool else found[0]

    return PART.sub(again, page)
