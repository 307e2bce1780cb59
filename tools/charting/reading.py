"""Reads the text of a trace: its lines, its turns, and how its run ended."""
import re
from dataclasses import dataclass, field

STAMP = re.compile(r"0|[1-9][0-9]*")
NODE = re.compile(r"([ct])(0|[1-9][0-9]*)")

ENDINGS = {"": "all was performed", "limit": "stopped at the limit of turns and messages", "fault": "a disk failed"}


class NotATrace(ValueError):
    """The text isn't a trace: the number of the line where that shows, from 1, and why."""

    def __init__(self, number, reason):
        super().__init__(f"line {number}: {reason}")
        self.number = number


@dataclass(frozen=True)
class Line:
    """A line of the trace: its number from 1, its turn's stamp and node, the words of its entry, and its whole text."""
    number: int
    stamp: int
    node: str
    words: tuple
    text: str

    @property
    def word(self):
        """The first word of the entry, which tells its kind."""
        return self.words[0]


@dataclass
class Turn:
    """What one node did at once."""
    stamp: int
    node: str
    lines: list = field(default_factory=list)


@dataclass
class Trace:
    """All turns in the order of the text, and the words of the last line; none where the text stops before it."""
    turns: list
    ending: tuple | None

    @property
    def lines(self):
        """All lines in order; that of number N stands at place N - 1."""
        return [line for turn in self.turns for line in turn.lines]

    @property
    def outcome(self):
        """How the run ended, in words."""
        if self.ending is None:
            return "the text stops before its last line"
        words = [word for word in self.ending[1:] if not word.isdigit()]
        return ENDINGS.get(" ".join(words), " ".join(self.ending))

    @property
    def storage_targets(self):
        """How many object storage targets the last line says there are; none where there is no last line."""
        if self.ending is None:
            return 0
        numbers = [int(word) for word in self.ending[1:] if word.isdigit()]
        return numbers[0] if numbers else 1


def place_of(node):
    """Where a node stands among all: clients before targets, each by number."""
    return node[0] == "t", int(node[1:])


def is_node(text):
    """Whether this is the name of a node."""
    return NODE.fullmatch(text) is not None


def line_of(number, text):
    """A line that is an entry."""
    words = text.split()
    if len(words) < 3 or not STAMP.fullmatch(words[0]) or not is_node(words[1]):
        raise NotATrace(number, "not a stamp, a node and an entry")
    return Line(number, int(words[0]), words[1], tuple(words[2:]), text)


def with_line(turns, line):
    """The line joins the last turn, or begins one."""
    if not turns or (turns[-1].stamp, turns[-1].node) != (line.stamp, line.node):
        turns.append(Turn(line.stamp, line.node))
    turns[-1].lines.append(line)


def read(text):
    """The trace that has this text; `NotATrace` at the first line that can't stand in one. Entries of any words are read."""
    rows = text.split("\n")
    while rows and not rows[-1].strip():
        rows.pop()
    turns, ending = [], None
    for number, row in enumerate(rows, 1):
        if ending is not None:
            raise NotATrace(number, "more after the last line")
        if row.split()[:1] == ["end"]:
            ending = tuple(row.split())
        else:
            with_line(turns, line_of(number, row))
    if not turns and ending is None:
        raise NotATrace(1, "no trace")
    return Trace(turns, ending)
