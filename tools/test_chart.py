#!/usr/bin/env python3
"""Tests of charts: what became of each message, each lock's bar, each span, the words of entries, and that a page drops nothing."""
import html
import json
import os
import re
import subprocess
import sys
import unittest

sys.dont_write_bytecode = True
HERE = os.path.dirname(os.path.abspath(__file__))
sys.path.insert(0, HERE)
from charting import model, page, reading, wording

# message 1 comes twice; the reply 2 comes after the reply 3, which was sent later; the reply 4 never comes; 5 is 1 sent again
MAIL = """1 c0 begin 0 mkdir /a
1 c0 send 1 t0 req c0.1 1 1 mkdir /a
2 t0 take 1
2 t0 txn 1.1 c0.1 1 - ok 1.1
2 t0 send 2 c0 reply c0.1 1 1 1.1 0.0 - 2:t0 - ok 1.1
3 t0 take 1
3 t0 send 3 c0 reply c0.1 1 1 1.1 0.0 - 2:t0 - ok 1.1
4 t0 take 1
4 t0 send 4 c0 reply c0.1 1 1 1.1 0.0 - 2:t0 - ok 1.1
5 c0 take 3
5 c0 heard t0 1
5 c0 told 0 2:t0 ok 1.1
6 c0 take 2
7 c0 tick
7 c0 send 5 t0 req c0.1 1 1 mkdir /a
8 c1 begin 0 lookup /
8 c1 send 6 t0 req c1.1 1 1 list /
9 t0 take 6
10 t0 take 5
end limit 2
"""

# c0 has a PW lock; c1 waits for it; it is called back twice and given back. c1 then dies and is evicted with its lock, for which
# c2 waits; c0 waits too, is evicted, and its wait ends with it
LOCKS = """1 t1 grant 1.1 c0.1 1.1/0 PW 0-end
2 c0 hold t1 1.1
3 t1 wait 1.2 c1.1 1.1/0 PR 0-7
3 t1 block 1.1
4 t1 tick
4 t1 block 1.1
5 c0 drop t1 1.1
5 c0 send 1 t1 cancel c0.1 1 1.1
6 t1 take 1
6 t1 release 1.1
6 t1 grant 1.2 c1.1 1.1/0 PR 0-end
7 c1 hold t1 1.2
8 t1 wait 1.3 c2.1 1.1/0 PW 5-5
8 t1 block 1.2
9 t1 wait 1.4 c0.1 1.1/0 PW 9-9
10 c1 die
11 t1 tick
11 t1 commit 0.0
11 t1 evict c0.1 expired
11 t1 evict c1.1 expired
11 t1 release 1.2
11 t1 grant 1.3 c2.1 1.1/0 PW 0-end
end
"""

# t0 crashes with a lock, recovers, crashes in its recovery, recovers and restores the lock; t1 crashes and its disk fails
RECOVERY = """1 t0 grant 1.1 c0.1 0.1 PR 2
2 t0 crash
3 t0 boot 2
3 t0 send 1 c0 up 2
4 t0 crash
5 t0 boot 3
6 t0 take 2
6 t0 back c0.1
6 t0 close
6 t0 commit 0.0
6 t0 restore 1.1 c0.1 0.1 PR 2
7 t0 block 1.1
8 t1 crash
9 t1 fail
end fault
"""


def chart_of(text):
    """The chart of a trace's text."""
    return model.chart_of(reading.read(text))


class Reading(unittest.TestCase):
    def test_turns_are_lines_of_one_stamp_and_node(self):
        trace = reading.read(MAIL)
        self.assertEqual([(turn.stamp, turn.node, len(turn.lines)) for turn in trace.turns],
                         [(1, "c0", 2), (2, "t0", 3), (3, "t0", 2), (4, "t0", 2), (5, "c0", 3), (6, "c0", 1), (7, "c0", 2),
                          (8, "c1", 2), (9, "t0", 1), (10, "t0", 1)])
        self.assertEqual([line.number for line in trace.lines], list(range(1, 20)))
        self.assertEqual((trace.storage_targets, trace.outcome), (2, "stopped at the limit of turns and messages"))

    def test_one_stamp_at_two_nodes_is_two_turns(self):
        self.assertEqual([turn.node for turn in reading.read("1 c0 tick\n1 t0 tick\nend\n").turns], ["c0", "t0"])

    def test_what_is_no_trace_is_refused_at_its_line(self):
        for text, number in (("", 1), ("run\n", 1), ("1 c0 tick\n\n2 c0 tick\nend\n", 2), ("1 c0\nend\n", 1),
                             ("1 x0 tick\nend\n", 1), ("one c0 tick\nend\n", 1), ("1 c0 tick\nend\n2 c0 tick\n", 3)):
            with self.assertRaises(reading.NotATrace) as caught:
                reading.read(text)
            self.assertEqual(caught.exception.number, number, text)

    def test_a_trace_may_lack_its_last_line(self):
        trace = reading.read("1 c0 tick")
        self.assertEqual((len(trace.turns), trace.ending, trace.outcome), (1, None, "the text stops before its last line"))

    def test_nodes_are_all_of_the_scenario_in_order(self):
        self.assertEqual(chart_of(MAIL).nodes, ["c0", "c1", "t0", "t1", "t2"])
        self.assertEqual(chart_of("1 c10 send 1 t2 join c10.1 1\nend\n").nodes, [f"c{n}" for n in range(11)] + ["t0", "t1", "t2"])


class Messages(unittest.TestCase):
    def setUp(self):
        self.messages = {message.number: message for message in chart_of(MAIL).messages}

    def test_states(self):
        self.assertEqual({number: message.state for number, message in self.messages.items()},
                         {"1": "repeated", "2": "late", "3": "taken", "4": "lost", "5": "late", "6": "taken"})

    def test_takings_have_their_lines(self):
        takings = {number: [(taking.line.stamp, taking.kind) for taking in message.takings] for number, message in self.messages.items()}
        self.assertEqual(takings, {"1": [(2, "taken"), (3, "again"), (4, "again")], "2": [(6, "late")], "3": [(5, "taken")],
                                   "4": [], "5": [(10, "late")], "6": [(9, "taken")]})

    def test_ends(self):
        ends = [(message.sender, message.receiver, message.sent.stamp) for message in self.messages.values()]
        self.assertEqual(ends, [("c0", "t0", 1), ("t0", "c0", 2), ("t0", "c0", 3), ("t0", "c0", 4), ("c0", "t0", 7), ("c1", "t0", 8)])

    def test_what_says_the_same_again(self):
        again = {number: message.first.number for number, message in self.messages.items() if message.first}
        self.assertEqual(again, {"3": "2", "4": "2", "5": "1"})

    def test_order_is_kept_for_each_receiver_alone(self):
        chart = chart_of("1 c0 send 1 t0 join c0.1 1\n1 c0 send 2 t1 join c0.1 1\n2 t1 take 2\n3 t0 take 1\nend\n")
        self.assertEqual([message.state for message in chart.messages], ["taken", "taken"])

    def test_a_message_that_was_never_sent(self):
        chart = chart_of("1 t0 take 7\nend\n")
        self.assertEqual((chart.messages, [line.number for line in chart.unsent]), ([], [1]))


class Locks(unittest.TestCase):
    @staticmethod
    def bar(lock):
        return lock.cookie, lock.life, lock.policy, [line and line.stamp for line in (lock.waited, lock.granted, lock.blocked, lock.ended)], lock.end

    def test_bars_from_grant_to_release(self):
        self.assertEqual([self.bar(lock) for lock in chart_of(LOCKS).locks], [
            ("1.1", "c0.1", "0-end", [None, 1, 3, 6], "given back"),
            ("1.2", "c1.1", "0-end", [3, 6, 8, 11], "evicted"),
            ("1.3", "c2.1", "0-end", [8, 11, None, None], None),
            ("1.4", "c0.1", "9-9", [9, None, None, 11], "evicted")])

    def test_mode_and_resource(self):
        self.assertEqual([(lock.target, lock.mode, lock.resource) for lock in chart_of(LOCKS).locks],
                         [("t1", "PW", "1.1/0"), ("t1", "PR", "1.1/0"), ("t1", "PW", "1.1/0"), ("t1", "PW", "1.1/0")])

    def test_a_crash_ends_a_lock_and_a_close_restores_it(self):
        self.assertEqual([self.bar(lock) for lock in chart_of(RECOVERY).locks], [
            ("1.1", "c0.1", "2", [None, 1, None, 2], "crash"), ("1.1", "c0.1", "2", [None, 6, 7, None], None)])

    def test_locks_of_two_targets_are_apart(self):
        text = "1 t1 grant 1.1 c0.1 1.1/0 PR 0-end\n2 t2 grant 1.1 c0.1 1.1/1 PR 0-end\n3 t2 release 1.1\nend 2\n"
        self.assertEqual([lock.ended and lock.ended.stamp for lock in chart_of(text).locks], [None, 3])

    def test_held_locks(self):
        holds = [(hold.client, hold.lock.mode, hold.begun.stamp, hold.ended.stamp) for hold in chart_of(LOCKS).holds]
        self.assertEqual(holds, [("c0", "PW", 2, 5), ("c1", "PR", 7, 10)])

    def test_a_held_lock_that_no_target_granted(self):
        self.assertEqual([hold.lock for hold in chart_of("1 c0 hold t0 1.1\nend\n").holds], [None])


class Spans(unittest.TestCase):
    @staticmethod
    def spans(text):
        return [(span.node, span.kind, span.begun.stamp, span.ended and span.ended.stamp) for span in chart_of(text).spans]

    def test_recoveries(self):
        self.assertEqual(self.spans(RECOVERY), [
            ("t0", "down", 2, 3), ("t0", "recovery", 3, 4), ("t0", "down", 4, 5), ("t0", "recovery", 5, 6),
            ("t1", "down", 8, 9), ("t1", "failed", 9, None)])

    def test_a_death_has_no_end(self):
        self.assertEqual(self.spans(LOCKS), [("c1", "dead", 10, None)])

    def test_a_recovery_that_stays_open(self):
        self.assertEqual(self.spans("1 t0 crash\n2 t0 boot 2\nend\n"), [("t0", "down", 1, 2), ("t0", "recovery", 2, None)])


class Wording(unittest.TestCase):
    @staticmethod
    def said(entry):
        return wording.entry_text(reading.line_of(1, "1 t0 " + entry))

    def test_entries(self):
        for entry, text in (("begin 0 mkdir /a", "begin 0: mkdir /a"), ("told 0 2:t0 ok 1.1", "told 0: ok 1.1"),
                            ("txn 1.2 c2.1 1 1.1 ok 1.2", "txn 1.2 c2.1 req 1: ok 1.2"), ("crash", "crash"),
                            ("grant 1.1 c1.1 1.1 PR 5", "grant lock 1.1 c1.1: PR 1.1 LOOKUP+LAYOUT"),
                            ("wait 1.2 c1.1 1.1/0 PR 0-7", "wait lock 1.2 c1.1: PR 1.1/0 0-7"), ("evict c0.1 gap", "evict c0.1: gap")):
            self.assertEqual(self.said(entry), text)

    def test_unknown_words_stay(self):
        for entry in ("fly high", "grant 1.1", "crash now", "evict c0.1 gap more", "wait 1 2 3 4 5 6", "send 1", "take 1 2"):
            self.assertEqual(self.said(entry), entry)
        self.assertEqual(wording.message_text(("destroy", "1", "1.1/0")), "destroy 1 1.1/0")
        self.assertEqual(self.said("grant 1.1 c1.1 1.1 PR 8"), "grant lock 1.1 c1.1: PR 1.1 8")

    def test_messages_at_both_ends(self):
        chart = chart_of(MAIL)
        messages = {message.number: message for message in chart.messages}
        self.assertEqual(wording.entry_text(chart.trace.lines[1], messages["1"]), "send 1 → t0 req 1: mkdir /a")
        self.assertEqual(wording.entry_text(chart.trace.lines[12], messages["2"]), "take 2 ← t0 reply 1: ok 1.1")

    def test_families(self):
        kinds = {"req": "request", "reply": "request", "block": "lock", "ask": "lock", "up": "recovery", "lock": "recovery", "destroy": "other"}
        self.assertEqual({kind: wording.family((kind,)) for kind in kinds}, kinds)


# ---- pages

class Long:
    """A long trace after the pattern of a write in one cache that another client reads: clients ask in turn for a file's lock, its
    holder is called back, writes back what it has changed, and gives the lock up. Every tenth reply is lost and sent again."""

    CLIENTS = 4

    def __init__(self, turns):
        self.rows, self.stamp, self.sent, self.cookie = [], 0, 0, 0
        self.numbers = [0] * self.CLIENTS
        holder, step = None, 0
        while self.stamp < turns:
            client = step % self.CLIENTS
            mode, call = ("PW", "write 0 0 6869") if step % 2 else ("PR", "read 0 0 2")
            holder = self.acquire(client, mode, call, holder)
            step += 1
        self.text = "\n".join(self.rows + ["end", ""])

    def turn(self, node, *entries):
        """A turn of these entries, each with the number of the message that it sends where it has `{}`."""
        self.stamp += 1
        for entry in entries:
            self.sent += entry.startswith("send")
            self.rows.append(f"{self.stamp} {node} " + entry.replace("{}", str(self.sent)))

    def request(self, client, before, operation, entries, answer):
        """A request and its reply, which the client takes in its next turn; every tenth reply is lost."""
        self.numbers[client] += 1
        number = self.numbers[client]
        asking = f"send {{}} t1 req c{client}.1 1 {number} {operation}"
        reply = f"send {{}} c{client} reply c{client}.1 1 {number} 0.0 0.0 - {self.stamp + 2}:t1 - {answer}"
        self.turn(f"c{client}", *before, asking)
        self.turn("t1", f"take {self.sent}", *entries, reply)
        if number % 10 == 0:
            self.turn(f"c{client}", "tick", asking)
            self.turn("t1", f"take {self.sent}", reply)
        return f"take {self.sent}", f"heard t1 {number}"

    def acquire(self, client, mode, call, holder):
        """A client gets the lock and its call is told; it is the holder from then on."""
        self.cookie += 1
        begin, cookie = [f"begin 0 {call}"], f"1.{self.cookie}"
        enqueue, lock = f"enqueue 1.1/0 {mode} 0-1", f"{cookie} c{client}.1 1.1/0 {mode} 0-end"
        told = [f"hold t1 {cookie}", f"told 0 {self.stamp + 3}:c{client} ok"]
        if holder is None:
            taken = self.request(client, begin, enqueue, [f"grant {lock}"], f"granted {cookie} 0-end 0")
            self.turn(f"c{client}", *taken, *told)
            return client, cookie, mode
        taken = self.request(client, begin, enqueue, [f"wait {lock}"], f"waiting {cookie}")
        self.turn(f"c{client}", *taken)
        self.call_back(holder)
        self.turn("t1", f"take {self.sent}", f"release {holder[1]}", f"grant {lock}", f"send {{}} c{client} grant c{client}.1 1 {cookie} 0-end 2 0.0 -")
        self.turn(f"c{client}", f"take {self.sent}", *told)
        return client, cookie, mode

    def call_back(self, holder):
        """The holder is called back, writes back what it has changed, and gives the lock up."""
        client, cookie, mode = holder
        self.turn("t1", "tick", f"block {cookie}", f"send {{}} c{client} block c{client}.1 1 {cookie}")
        taken = [f"take {self.sent}"]
        if mode == "PW":
            taken = self.request(client, taken, f"put 1.1/0 {cookie} 0 6869", [f"txn 1.{self.cookie} c{client}.1 {self.numbers[client] + 1} - ok"], "ok")
        self.turn(f"c{client}", *taken, f"drop t1 {cookie}", f"send {{}} t1 cancel c{client}.1 1 {cookie}")


def data_in(written):
    """The data that a page has."""
    return json.loads(re.search(r'<script type="application/json" id="data">(.*?)</script>', written, re.DOTALL)[1])


class Pages(unittest.TestCase):
    def test_no_line_is_dropped(self):
        text = MAIL.replace("1 c0 begin 0 mkdir /a\n", "1 c0 fly </script> {{style}} <b>\n")
        data = data_in(page.page_of(text, "a trace"))
        self.assertEqual(data["raws"], text.split("\n")[:-2])
        self.assertEqual(data["texts"][0], "fly </script> {{style}} <b>")
        self.assertEqual(len(data["texts"]), len(data["raws"]))

    def test_each_taking_and_each_loss_is_an_arrow(self):
        data = data_in(page.page_of(MAIL, "mail"))
        self.assertEqual([(message["number"], message["sent"], message["takings"]) for message in data["messages"]], [
            ("1", 2, [[3, "taken"], [6, "again"], [8, "again"]]), ("2", 5, [[13, "late"]]), ("3", 7, [[10, "taken"]]), ("4", 9, []),
            ("5", 15, [[19, "late"]]), ("6", 17, [[18, "taken"]])])
        self.assertEqual(data["tags"], {"6": "again", "7": "resent", "8": "again", "9": "never taken", "13": "late", "15": "resent", "19": "late"})

    def test_bars(self):
        data = data_in(page.page_of(RECOVERY, "recovery"))
        self.assertEqual([(bar["kind"], data["nodes"][bar["node"]][0], bar["from"], bar["to"]) for bar in data["bars"]], [
            ("down", "t0", 2, 3), ("recovery", "t0", 3, 5), ("down", "t0", 5, 6), ("recovery", "t0", 6, 9), ("down", "t1", 13, 14),
            ("failed", "t1", 14, 0), ("lock", "t0", 1, 2), ("lock", "t0", 11, 0)])

    def test_a_page_stands_alone(self):
        written = page.page_of(MAIL, "a <trace>")
        self.assertIn(f"<title>{html.escape('a <trace>')}</title>", written)
        self.assertEqual(re.findall(r'(?:src|href)\s*=|@import|url\((?!#)|https?:|fetch\(|XMLHttpRequest|import\s*\(', written), [])

    def test_two_thousand_turns(self):
        text = Long(2000).text
        trace = reading.read(text)
        written = page.page_of(text, "long")
        self.assertGreaterEqual(len(trace.turns), 2000)
        self.assertEqual(data_in(written)["raws"], [line.text for line in trace.lines])
        self.assertLess(len(written.encode()), 1_500_000)

    def test_the_program(self):
        for words, given in (([os.devnull], b""), ([], b"run\n"), ([], b"1 c0 fly \xff\nend\n")):
            done = subprocess.run([os.path.join(HERE, "chart"), *words], input=given, capture_output=True)
            self.assertEqual((done.returncode, done.stdout), (3, b""))
        done = subprocess.run([os.path.join(HERE, "chart")], input=MAIL.encode(), capture_output=True)
        self.assertEqual((done.returncode, done.stdout.decode()), (0, page.page_of(MAIL, "trace")))
        self.assertEqual(subprocess.run([os.path.join(HERE, "chart"), "no such file"], capture_output=True).returncode, 4)
        self.assertEqual(subprocess.run([os.path.join(HERE, "chart"), "one", "two"], capture_output=True).returncode, 2)

    def test_shipped_traces(self):
        folder = os.path.join(HERE, "..", "scenarios")
        names = [name for name in sorted(os.listdir(folder)) if name.endswith(".trace")]
        self.assertTrue(names)
        for name in names:
            with open(os.path.join(folder, name), encoding="utf-8") as held:
                text = held.read()
            data = data_in(page.page_of(text, name))
            self.assertEqual(data["raws"], text.split("\n")[:-2], name)
            self.assertEqual(len(data["texts"]), len(data["raws"]), name)


if __name__ == "__main__":
    unittest.main()
