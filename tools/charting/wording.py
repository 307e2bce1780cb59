"""Short words for what a trace says: for each entry its first word and, in reading order, what a reader needs of the rest.

What isn't known here, an entry or a message of another kind or with too few words or too many, keeps all its words."""
import re
from dataclasses import dataclass

BITS = ((1, "LOOKUP"), (2, "UPDATE"), (4, "LAYOUT"))
LONGEST = 90

REQUESTS = ("req", "reply")
LOCKS = ("cancel", "where", "size", "grant", "block", "ask")
RECOVERY = ("replay", "lock", "word", "join", "up", "ready", "evicted")


@dataclass(frozen=True)
class Form:
    """How many words stand after the first, and a text in which `{N}` is word N, `{N~}` what the lock of word N covers, and
    `{N+}` all words from N on, one at least."""
    count: int
    text: str

    def filled(self, words):
        """The text with these words; none where there are too few or too many."""
        rest = len(words) - 1 - self.count
        if rest < 0 or (rest > 0 and "+}" not in self.text):
            return None
        return re.sub(r"\{(\d+)([+~]?)\}", lambda found: self.part(words, int(found[1]), found[2]), self.text)

    @staticmethod
    def part(words, place, how):
        """What stands for one brace."""
        if how == "+":
            return " ".join(words[place:])
        return covered(words[place]) if how == "~" else words[place]


ENTRIES = {
    "begin": Form(2, "{1}: {2+}"),
    "busy": Form(1, "{1}"),
    "heard": Form(2, "{1} req {2}"),
    "hold": Form(2, "{1} lock {2}"),
    "drop": Form(2, "{1} lock {2}"),
    "told": Form(3, "{1}: {3+}"),
    "peek": Form(3, "{1} lock {2}: size {3}"),
    "act": Form(3, "{1} req {2}: {3+}"),
    "txn": Form(5, "{1} {2} req {3}: {5+}"),
    "grant": Form(5, "lock {1} {2}: {4} {3} {5~}"),
    "wait": Form(5, "lock {1} {2}: {4} {3} {5~}"),
    "restore": Form(5, "lock {1} {2}: {4} {3} {5~}"),
    "block": Form(1, "lock {1}"),
    "release": Form(1, "lock {1}"),
    "evict": Form(2, "{1}: {2}"),
}

MESSAGES = {
    "req": Form(4, "{3}: {4+}"),
    "cancel": Form(3, "lock {3}"),
    "where": Form(3, "lock {3}"),
    "replay": Form(6, "{3}: {6+}"),
    "lock": Form(6, "{3}: {5} {4} {6~}"),
    "word": Form(5, "{3} replays, {4} locks"),
    "join": Form(2, "{1}"),
    "size": Form(6, "{6} under lock {3}"),
    "up": Form(1, "boot {1}"),
    "reply": Form(9, "{3}: {9+}"),
    "grant": Form(7, "lock {3} {4}"),
    "block": Form(3, "lock {3}"),
    "ask": Form(5, "size under lock {3}"),
    "ready": Form(3, "{1}"),
    "evicted": Form(2, "{1}"),
}

# which other sign the first word of an entry has
SIGNS = {"crash": "down", "die": "down", "fail": "loss", "evict": "loss", "boot": "recovery", "close": "recovery",
         "commit": "commit", "life": "life", "joined": "life", "txn": "change", "told": "answer"}


def covered(policy):
    """What a lock covers: the names of its bits, or its range."""
    if not policy.isdigit():
        return policy
    names = [name for bit, name in BITS if int(policy) & bit]
    return "+".join(names) if sum(bit for bit, _ in BITS) >= int(policy) > 0 else policy


def lock_text(lock):
    """A lock's mode, resource and what it covers."""
    return f"{lock.mode} {lock.resource} {covered(lock.policy)}"


def clipped(text):
    """The text, cut where it is long."""
    return text if len(text) <= LONGEST else text[:LONGEST - 1] + "…"


def said(forms, words):
    """The first word, and the rest in the form of its kind, or as it is."""
    form = forms.get(words[0])
    rest = form.filled(words) if form else None
    return " ".join(words) if rest is None else f"{words[0]} {rest}"


def message_text(words):
    """What a message says, in short."""
    return said(MESSAGES, words)


def entry_text(line, message=None):
    """What an entry says, in short; of a `send` or `take` line with the message that it sends or takes."""
    if message is None or (line.word == "take" and len(line.words) > 2):
        return clipped(said(ENTRIES, line.words))
    way = f"→ {message.receiver}" if line is message.sent else f"← {message.sender}"
    return clipped(f"{line.word} {message.number} {way} {message_text(message.words)}")


def family(words):
    """The family of a message: `request`, `lock`, `recovery`, or `other` where its kind isn't known."""
    families = (("request", REQUESTS), ("lock", LOCKS), ("recovery", RECOVERY))
    return next((name for name, kinds in families if words[0] in kinds), "other")
