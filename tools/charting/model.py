"""What happened in a trace: its messages and what became of each, its locks from grant to release, and the spans in which a
node was down, recovering or dead. A part that a trace leaves open, as a lock that is never released, has no last line."""
from dataclasses import dataclass, field
from . import reading

LOCK_ENTRIES = ("grant", "wait", "restore")
NAMED_BY_NUMBER = ("req", "reply")


# ---- messages

@dataclass
class Taking:
    """A turn took a message: for the first time (`taken`), for the first time though its node had taken one that was sent
    later (`late`), or once more (`again`)."""
    line: reading.Line
    kind: str


@dataclass
class Message:
    """A message, and all that took it in order. `first` is an earlier message that said the same, of the same sender to the
    same receiver; of a request or a reply, one of the same life and request number."""
    number: str
    sender: str
    receiver: str
    words: tuple
    sent: reading.Line
    takings: list = field(default_factory=list)
    first: "Message | None" = None

    @property
    def state(self):
        """`lost` where nothing took it, `repeated` where it was taken more than once, else `taken` or `late`."""
        if not self.takings:
            return "lost"
        return "repeated" if len(self.takings) > 1 else self.takings[0].kind


class Post:
    """Follows messages through a trace."""

    def __init__(self):
        self.messages = []
        self.by_number = {}
        self.by_subject = {}
        self.newest_taken = {}
        self.unsent = []

    def follow(self, line):
        """A further line of the trace."""
        if line.word == "send" and len(line.words) > 3:
            self.send(line)
        if line.word == "take" and len(line.words) > 1:
            self.take(line)

    def send(self, line):
        """A message is sent; where its number was used before, the new one has it from now on."""
        number, receiver, words = line.words[1], line.words[2], line.words[3:]
        message = Message(number, line.node, receiver, words, line)
        message.first = self.by_subject.setdefault(self.subject_of(message), message)
        if message.first is message:
            message.first = None
        self.by_number[number] = message
        self.messages.append(message)

    @staticmethod
    def subject_of(message):
        """What two messages have in common that say the same."""
        words = message.words
        if words[0] in NAMED_BY_NUMBER and len(words) > 3:
            words = words[0], words[1], words[3]
        return message.sender, message.receiver, words

    def take(self, line):
        """A message is taken; `unsent` has the line where no such message was sent before."""
        message = self.by_number.get(line.words[1])
        if message is None:
            self.unsent.append(line)
            return
        newest = self.newest_taken.get(line.node, 0)
        kind = "again" if message.takings else "late" if message.sent.number < newest else "taken"
        message.takings.append(Taking(line, kind))
        self.newest_taken[line.node] = max(newest, message.sent.number)


# ---- locks

@dataclass
class Lock:
    """A lock at its target: the lines where it began to wait, was granted or restored, was called back first, and ended; and
    how it ended: `given back`, `evicted`, `crash` or `disk failed`, or `granted anew` where a trace grants a cookie twice."""
    target: str
    cookie: str
    life: str
    resource: str
    mode: str
    policy: str
    waited: reading.Line | None = None
    granted: reading.Line | None = None
    blocked: reading.Line | None = None
    ended: reading.Line | None = None
    end: str | None = None

    @property
    def begun(self):
        """The first line that has it."""
        return self.waited or self.granted

    @property
    def lines(self):
        """The lines that make it what it is, in order."""
        return [line for line in (self.waited, self.granted, self.blocked, self.ended) if line]

    def finish(self, line, end):
        """It ends here."""
        self.ended, self.end = line, end


class Locks:
    """Follows the locks of all targets through a trace."""

    def __init__(self):
        self.locks = []
        self.by_cookie = {}
        self.live = {}
        self.evicted = set()

    def follow(self, turn):
        """A further turn of the trace."""
        self.evicted = set()
        for line in turn.lines:
            words = line.words
            if line.word in LOCK_ENTRIES and len(words) > 5:
                self.begin(line)
            elif line.word == "block" and len(words) > 1:
                self.call_back(line)
            elif line.word == "release" and len(words) > 1:
                self.release(line)
            elif line.word == "evict" and len(words) > 1:
                self.evict(line)
            elif line.word in ("crash", "fail"):
                self.end_all(line)

    def begin(self, line):
        """A lock waits, is granted or is restored."""
        _, cookie, life, resource, mode, policy = line.words[:6]
        known = self.live.get((line.node, cookie))
        if known and line.word == "grant" and known.granted is None:
            known.granted, known.policy = line, policy
            return
        if known:
            known.finish(line, "granted anew")
        lock = Lock(line.node, cookie, life, resource, mode, policy)
        if line.word == "wait":
            lock.waited = line
        else:
            lock.granted = line
        self.locks.append(lock)
        self.by_cookie.setdefault((line.node, cookie), []).append(lock)
        self.live[line.node, cookie] = lock

    def call_back(self, line):
        """A lock is called back; the first such line counts."""
        lock = self.live.get((line.node, line.words[1]))
        if lock and lock.blocked is None:
            lock.blocked = line

    def release(self, line):
        """A lock is given back, or taken away in the turn that evicts its life."""
        lock = self.live.pop((line.node, line.words[1]), None)
        if lock:
            lock.finish(line, "evicted" if lock.life in self.evicted else "given back")

    def evict(self, line):
        """With a life its waiting locks go; lines of their own release those that it was granted."""
        life = line.words[1]
        self.evicted.add(life)
        gone = [key for key, lock in self.live.items()
                if key[0] == line.node and lock.life == life and lock.granted is None]
        for key in gone:
            self.live.pop(key).finish(line, "evicted")

    def end_all(self, line):
        """A target that goes down forgets its locks."""
        gone = [key for key in self.live if key[0] == line.node]
        for key in gone:
            self.live.pop(key).finish(line, "crash" if line.word == "crash" else "disk failed")


@dataclass
class Hold:
    """A client holds a lock of a target: from its `hold` line to its `drop` line, or to the client's death. `lock` is that lock
    as its target granted it last, or none where the trace doesn't have it."""
    client: str
    target: str
    cookie: str
    begun: reading.Line
    lock: Lock | None
    ended: reading.Line | None = None

    @property
    def lines(self):
        """The lines that make it what it is, in order."""
        return [self.begun, self.ended] if self.ended else [self.begun]


class Holds:
    """Follows through a trace which locks clients hold."""

    def __init__(self, by_cookie):
        self.by_cookie = by_cookie
        self.holds = []
        self.live = {}

    def follow(self, line):
        """A further line of the trace."""
        words = line.words
        if line.word == "hold" and len(words) > 2:
            hold = Hold(line.node, words[1], words[2], line, self.granted_before(line))
            self.holds.append(hold)
            self.live[(line.node,) + words[1:3]] = hold
        elif line.word == "drop" and len(words) > 2:
            self.end([(line.node,) + words[1:3]], line)
        elif line.word == "die":
            self.end([key for key in self.live if key[0] == line.node], line)

    def granted_before(self, line):
        """The lock that this `hold` line means."""
        known = [lock for lock in self.by_cookie.get(line.words[1:3], [])
                 if lock.granted and lock.granted.number < line.number]
        return known[-1] if known else None

    def end(self, keys, line):
        """These are held no longer."""
        for key in keys:
            hold = self.live.pop(key, None)
            if hold:
                hold.ended = line


# ---- spans

@dataclass
class Span:
    """A stretch of a node's time: a target is `down` from its crash to its boot, in `recovery` from its boot to the close of
    its window, and `failed` after its disk has; a client is `dead` after its death. `label` says it in words."""
    node: str
    kind: str
    label: str
    begun: reading.Line
    ended: reading.Line | None = None

    @property
    def lines(self):
        """Its first line, and its last one where it has ended."""
        return [self.begun, self.ended] if self.ended else [self.begun]


class Spans:
    """Follows through a trace whether its nodes are up."""

    BEGINS = {"crash": "down", "boot": "recovery", "die": "dead", "fail": "failed"}

    def __init__(self):
        self.spans = []
        self.live = {}

    def follow(self, line):
        """A further line of the trace."""
        last = self.live.get(line.node)
        if line.word in self.BEGINS:
            if last:
                last.ended = line
            self.begin(line, self.BEGINS[line.word])
        elif line.word == "close" and last and last.kind == "recovery":
            last.ended = line
            del self.live[line.node]

    def begin(self, line, kind):
        """A span begins here."""
        label = {"recovery": f"recovery, {' '.join(line.words)}", "failed": "disk failed"}.get(kind, kind)
        span = Span(line.node, kind, label, line)
        self.live[line.node] = span
        self.spans.append(span)


# ---- the whole

@dataclass
class Chart:
    """All that a chart shows of a trace. `unsent` are the `take` lines of messages that no line before has sent."""
    trace: reading.Trace
    nodes: list
    messages: list
    unsent: list
    locks: list
    holds: list
    spans: list


MOST = {"c": 15, "t": 8}


def nodes_of(trace, messages):
    """All nodes in order: those that a line or a message names, the targets that the last line counts, and those that a
    scenario has besides, since it numbers its nodes from 0."""
    named = {turn.node for turn in trace.turns} | {f"t{trace.storage_targets}"}
    named |= {message.receiver for message in messages if reading.is_node(message.receiver)}
    for kind, most in MOST.items():
        numbers = [int(node[1:]) for node in named if node[0] == kind]
        named |= {f"{kind}{number}" for number in range(min(max(numbers, default=-1), most) + 1)}
    return sorted(named, key=reading.place_of)


def chart_of(trace):
    """The chart of a trace."""
    post, locks, spans = Post(), Locks(), Spans()
    for turn in trace.turns:
        locks.follow(turn)
    holds = Holds(locks.by_cookie)
    for line in trace.lines:
        post.follow(line)
        holds.follow(line)
        spans.follow(line)
    return Chart(trace, nodes_of(trace, post.messages), post.messages, post.unsent, locks.locks, holds.holds, spans.spans)
