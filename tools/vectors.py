#!/usr/bin/env python3
"""Byte vectors for the programs `practice` and `screen`: input streams of the small program, each with the exact bytes it must write.

    python3 tools/vectors.py            writes crates/practice/data/vectors, crates/practice/stdout, crates/screen/stdin and crates/screen/stdout
    python3 tools/vectors.py --check    writes nothing; exits 1 if a file on disk differs from what would be written

The first half is a model of one screen, written from the text of document 01 alone; it shares no code with the crates. It keeps every record that it
has ever known and reads log, counted taps and value stamp off them by their definitions. The second half lists the vectors: each message stands
beside the reply that a reader of document 01 expects, and the script fails if the model says otherwise. Only the mixed walks at the end have no
written replies. FIGURES holds the document's own replies as plain hex.

Format of the file, for each vector: one byte n, n bytes of name, 4 bytes length of the input, the input, 4 bytes length of the output, the output;
lengths are big-endian. One byte 0 ends the file. The file `stdout` holds a line `NAME ok` for each vector in order and then the total.
"""
import sys
from collections import Counter, namedtuple
from functools import reduce
from pathlib import Path
from struct import calcsize, pack, unpack

CRATE = Path(__file__).resolve().parent.parent / "crates" / "practice"
SCREEN = CRATE.parent / "screen"

# ---------------------------------------------------------------- the numbers of document 01, each once

LEAST_SCREENS, MOST_SCREENS = 2, 8
PARTS = 8  # of a stamp: never taken for the number of screens
PROMPTS, LEAST_SHOWING, MOST_SHOWING = 64, 1, 65535
LOG_MAX, KNOWN_MAX = 256, 1024
COUNT_MAX = LOG_MAX
BYTE_TOP, COUNT_TOP, TOP = 2**8 - 1, 2**16 - 1, 2**32 - 1
ACCEPT, DECLINE = 1, 2
UNASKED, ACCEPTED, DECLINED, CONTESTED = range(4)

# ---------------------------------------------------------------- stamps, taps, records

Tap = namedtuple("Tap", "front serial prompt showing answer")
Record = namedtuple("Record", "origin number label tap")


def stamp(*parts):
    return parts + (0,) * (PARTS - len(parts))


def covers(b, a):
    return all(x <= y for x, y in zip(a, b))


def merge(a, b):
    return tuple(map(max, a, b))


def stamp_of(r):
    return r.label[:r.origin] + (r.number,) + r.label[r.origin + 1:]


# ---------------------------------------------------------------- the wire

GOSSIP, RECORD, TAP, QUESTION, TAKEN, ALREADY, VERDICT, WAIT, REFUSAL, GOSSIP_TAKEN, OPEN, SEND = range(1, 13)
STAMP, TAP_FIELDS, BITS = f"{PARTS}I", "BIBHB", "B"
FIELDS = {GOSSIP: "BBH" + STAMP, RECORD: "BI" + STAMP + TAP_FIELDS, TAP: TAP_FIELDS + STAMP, QUESTION: "B" + STAMP, TAKEN: STAMP, ALREADY: STAMP,
          VERDICT: "BHII" + STAMP, WAIT: BITS, REFUSAL: "B", GOSSIP_TAKEN: "HH", OPEN: "BB", SEND: ""}
BODY = {kind: calcsize(">" + fields) for kind, fields in FIELDS.items()}
HEAD_SIZE, RECORD_SIZE = 1 + BODY[GOSSIP], 1 + BODY[RECORD]
COUNT_AT, LABEL_AT = 1 + calcsize(">BB"), 1 + calcsize(">BI")  # in a head, and in a record
TAP_AT = LABEL_AT + calcsize(">" + STAMP)
NAMES = {GOSSIP: "gossip", TAP: "tap", QUESTION: "question", OPEN: "open", None: "stop"}


def message(kind, *values):
    return bytes([kind]) + pack(">" + FIELDS[kind], *values)


def values_of(kind, data):
    """The values of the fields behind a byte of kind, which is not looked at."""
    return unpack(">" + FIELDS[kind], data[1:])


def wire_record(r):
    return message(RECORD, r.origin, r.number, *r.label, *r.tap)


def wire_gossip(sender, n, m, records, count=None):
    head = message(GOSSIP, sender, n, len(records) if count is None else count, *m)
    return head + b"".join(map(wire_record, records))


def read_record(data):
    origin, number, *rest = values_of(RECORD, data)
    return Record(origin, number, tuple(rest[:PARTS]), Tap(*rest[PARTS:]))


def tap_in_range(tap):
    return tap.prompt < PROMPTS and tap.showing >= LEAST_SHOWING and tap.answer in (ACCEPT, DECLINE)


def zero_past(parts, n):
    return not any(parts[n:])


def record_obeys(r, n, m):
    return (r.origin < n and 1 <= r.number <= m[r.origin] and r.label[r.origin] < r.number and zero_past(r.label, n) and tap_in_range(r.tap))


def gossip_obeys(sender, n, m, lines):
    """The field rules of a gossip message, by the N of its own head."""
    records = [read_record(line) for line in lines]
    places = [(r.origin, r.number) for r in records]
    return (LEAST_SCREENS <= n <= MOST_SCREENS and sender < n and zero_past(m, n) and all(line[0] == RECORD for line in lines)
            and all(record_obeys(r, n, m) for r in records) and all(a < b for a, b in zip(places, places[1:])))


# ---------------------------------------------------------------- replies

def taken(*parts):
    return message(TAKEN, *stamp(*parts))


def already(*parts):
    return message(ALREADY, *stamp(*parts))


def verdict(which, showing, accepts, declines, *value):
    return message(VERDICT, which, showing, accepts, declines, *stamp(*value))


def wait(bits):
    return message(WAIT, bits)


def no(number):
    return message(REFUSAL, number)


def heard(new, applied):
    return message(GOSSIP_TAKEN, new, applied)


# ---------------------------------------------------------------- one screen

class Screen:
    """The book of screen i of n: its table, and every record that it knows."""

    def __init__(self, i, n):
        self.i, self.n = i, n
        self.table = [stamp()] * n
        self.records = {}

    @property
    def known(self):
        return self.table[self.i]

    def in_order(self):
        return [self.records[place] for place in sorted(self.records)]

    def is_applied(self, r):
        return covers(self.known, r.label)

    def applied(self):
        return [r for r in self.in_order() if self.is_applied(r)]

    def known_everywhere(self, r):
        return all(r.number <= row[r.origin] for row in self.table)

    def log(self):
        return [r for r in self.in_order() if not (self.is_applied(r) and self.known_everywhere(r))]

    def value(self):
        return reduce(merge, map(stamp_of, self.applied()), stamp())

    def answer(self, data):
        if data[0] == TAP:
            values = values_of(TAP, data)
            return self.tap(Tap(*values[:-PARTS]), values[-PARTS:])
        if data[0] == QUESTION:
            prompt, *label = values_of(QUESTION, data)
            return self.question(prompt, tuple(label))
        if data[0] == GOSSIP:
            sender, n, _, *m = values_of(GOSSIP, data[:HEAD_SIZE])
            return self.gossip(sender, n, tuple(m), [data[at:at + RECORD_SIZE] for at in range(HEAD_SIZE, len(data), RECORD_SIZE)])
        return wire_gossip(self.i, self.n, self.known, self.log())

    def tap(self, tap, label):
        if not tap_in_range(tap) or not zero_past(label, self.n):
            return no(1)
        if label[self.i] > self.known[self.i]:
            return no(3)
        if any(r.tap == tap for r in self.applied()):
            return already(*self.value())
        log = self.log()
        for r in log:
            if r.tap == tap:
                return already(*stamp_of(r))
        if sum(self.known) == KNOWN_MAX:
            return no(7)
        if len(log) == LOG_MAX:
            return no(9)
        return self.take(Record(self.i, self.known[self.i] + 1, label, tap))

    def take(self, r):
        self.records[r.origin, r.number] = r
        self.table[self.i] = stamp_of(r._replace(label=self.known))
        return taken(*stamp_of(r))

    def question(self, prompt, label):
        if prompt >= PROMPTS or not zero_past(label, self.n):
            return no(1)
        if label[self.i] > self.known[self.i]:
            return no(3)
        value = self.value()
        if not covers(value, label):
            return wait(sum(2**k for k in range(PARTS) if label[k] > value[k]))
        return verdict(*self.outcome(prompt), *value)

    def outcome(self, prompt):
        """Verdict, showing, accepts and declines of a prompt."""
        taps = {r.tap for r in self.applied() if r.tap.prompt == prompt}
        showing = max((tap.showing for tap in taps), default=0)
        accepts, declines = (sum(tap.showing == showing and tap.answer == answer for tap in taps) for answer in (ACCEPT, DECLINE))
        which = (CONTESTED if declines else ACCEPTED) if accepts else (DECLINED if declines else UNASKED)
        return which, showing, accepts, declines

    def gossip(self, j, n, m, lines):
        if not gossip_obeys(j, n, m, lines):
            return no(1)
        if n != self.n or j == self.i:
            return no(2)
        if covers(self.table[j], m):
            return no(4)
        if not covers(m, self.table[j]):
            return no(5)
        if m[self.i] > self.known[self.i]:
            return no(6)
        if sum(merge(self.known, m)) > KNOWN_MAX:
            return no(7)
        new = {(r.origin, r.number): r for r in map(read_record, lines) if r.number > self.known[r.origin]}
        if any((k, number) not in new for k in range(n) for number in range(self.known[k] + 1, m[k] + 1)):
            return no(8)
        if len(self.log()) + len(new) > LOG_MAX:
            return no(9)
        return self.hear(j, m, new)

    def hear(self, j, m, new):
        before = len(self.applied())
        self.records.update(new)
        self.table[self.i] = merge(self.known, m)
        self.table[j] = m
        return heard(len(new), len(self.applied()) - before)


# ---------------------------------------------------------------- the small program

def next_message(data, at, kinds):
    """The whole message that starts at `at`, or None where the program has to write 09 01 and stop."""
    if at == len(data) or data[at] not in kinds:
        return None
    end = at + 1 + BODY[data[at]]
    if data[at] == GOSSIP:
        count, records = int.from_bytes(data[at + COUNT_AT:at + COUNT_AT + 2], "big"), end
        end += count * RECORD_SIZE
        if count > COUNT_MAX or any(kind != RECORD for kind in data[records:end:RECORD_SIZE]):
            return None
    return data[at:end] if end <= len(data) else None


def run(data):
    """What the program does with `data`: pairs of the kind answered (None for the stop with 09 01) and the reply."""
    first = next_message(data, 0, [OPEN])
    if first is None:
        return [(None, no(1))]
    i, n = first[1:]
    if not (LEAST_SCREENS <= n <= MOST_SCREENS and i < n):
        return [(OPEN, no(2))]
    screen, at, replies = Screen(i, n), len(first), []
    while at < len(data):
        asked = next_message(data, at, [GOSSIP, TAP, QUESTION, SEND])
        if asked is None:
            return replies + [(None, no(1))]
        replies.append((asked[0], screen.answer(asked)))
        at += len(asked)
    return replies


# ---------------------------------------------------------------- how vectors are written down

SILENCE = b""
STOP = no(1)
send = message(SEND)
vectors = {}


def raw(name, data, output):
    assert name not in vectors, name
    said = b"".join(reply for _, reply in run(data))
    assert said == output, f"{name}: expected {output.hex()}, the model says {said.hex()}"
    vectors[name] = data, output


def add(name, screen, *pairs):
    """A stream for screen (i, N), as pairs of a message and the reply to it."""
    raw(name, start(*screen) + b"".join(asked for asked, _ in pairs), b"".join(reply for _, reply in pairs))


def start(i, n):
    return message(OPEN, i, n)


def press(tap, *label):
    return message(TAP, *tap, *stamp(*label))


def ask(prompt, *label):
    return message(QUESTION, prompt, *stamp(*label))


def gossip(sender, n, m, *records, count=None):
    return wire_gossip(sender, n, stamp(*m), records, count)


def record(origin, number, tap, *label):
    return Record(origin, number, stamp(*label), tap)


def with_kind(message, k, kind):
    """The gossip message with another kind at the place of its record k."""
    at = HEAD_SIZE + k * RECORD_SIZE
    return message[:at] + bytes([kind]) + message[at + 1:]


def nth(number):
    """One of many taps, all accepts of prompt 1 at showing 1."""
    return Tap(9, number, 1, 1, ACCEPT)


def many(origin, first, last, *label):
    return [record(origin, number, nth(number), *label) for number in range(first, last + 1)]


def sent(screen, *messages):
    """The gossip that a screen (i, N) of the model sends after these messages."""
    other = Screen(*screen)
    for data in messages:
        other.answer(data)
    return other.answer(send)


A = Tap(5, 1, 7, 1, ACCEPT)
B = Tap(5, 2, 7, 1, DECLINE)
G = Tap(6, 1, 7, 2, ACCEPT)
NO_PROMPT = A._replace(prompt=PROMPTS)
MOST = Tap(BYTE_TOP, TOP, PROMPTS - 1, MOST_SHOWING, DECLINE)
LAST = MOST_SCREENS - 1  # the last screen of the largest house
A_REC, B_REC, G_REC = record(0, 1, A), record(0, 2, B), record(2, 1, G, 1)
AFTER_B = sent((0, 3), press(A), press(B))
HEARD_B = (AFTER_B, heard(2, 2))
TAKE_A = (press(A), taken(1))
TAKE_B = (press(B), taken(2))


# ---------------------------------------------------------------- the cases of document 01

def document_cases():
    add("whole-case", (0, 2), TAKE_A, (send, gossip(0, 2, [1], A_REC)))
    add("case-a", (0, 3), TAKE_A, (ask(7, 1), verdict(ACCEPTED, 1, 1, 0, 1)))
    add("case-b", (0, 3), TAKE_A, TAKE_B, (ask(7, 2), verdict(CONTESTED, 1, 1, 1, 2)))
    add("case-c", (0, 3), TAKE_A, TAKE_B, (press(A), already(2)))
    add("case-d", (1, 3), (ask(7, 1), wait(0x01)))
    add("case-e", (1, 3), HEARD_B, (send, gossip(1, 3, [2], A_REC, B_REC)))
    add("case-f", (1, 3), HEARD_B, (AFTER_B, no(4)))
    take_g = (press(G, 1), taken(1, 0, 1))
    add("case-g", (2, 3), take_g, (ask(7), verdict(UNASKED, 0, 0, 0)), (ask(7, 1, 0, 1), wait(0x05)))
    case_h = take_g, (AFTER_B, heard(2, 3)), (ask(7, 2, 0, 1), verdict(ACCEPTED, 2, 1, 0, 2, 0, 1))
    add("case-h", (2, 3), *case_h)
    add("case-i", (0, 3), TAKE_A, TAKE_B, (press(nth(1), 3), no(3)), (press(nth(1), 2), taken(3)))
    add("case-j", (1, 3), (gossip(0, 3, [2], B_REC), no(8)))
    add("case-k", (1, 3), (gossip(0, 3, [0, 1]), no(6)))
    add("case-l", (2, 3), *case_h, (gossip(0, 3, [1, 1]), no(5)))


def case_m():
    to_1, to_0 = gossip(0, 2, [1], A_REC), gossip(1, 2, [1])
    add("case-m-screen-0", (0, 2), TAKE_A, (send, to_1), (to_0, heard(0, 0)), (send, gossip(0, 2, [1])), (to_0, no(4)))
    add("case-m-screen-1", (1, 2), (to_1, heard(1, 1)), (send, to_0), (to_1, no(4)), (ask(7, 1), verdict(ACCEPTED, 1, 1, 0, 1)))
    ours, theirs = [record(0, x, nth(x)) for x in (1, 2, 3)], [record(1, 1, A), record(1, 2, B, 3)]
    first, second, third = gossip(0, 2, [3], *ours), gossip(1, 2, [3, 2], *theirs), gossip(0, 2, [3, 2])
    add("case-m-until-both-logs-are-empty-0", (0, 2), *[(press(nth(x)), taken(x)) for x in (1, 2, 3)], (send, first),
        (second, heard(2, 2)), (send, third), (ask(7, 3, 2), verdict(CONTESTED, 1, 1, 1, 3, 2)))
    add("case-m-until-both-logs-are-empty-1", (1, 2), (press(A), taken(0, 1)), (press(B, 3), taken(3, 2)), (first, heard(3, 4)), (send, second),
        (third, heard(0, 0)), (send, gossip(1, 2, [3, 2])), (ask(7, 3, 2), verdict(CONTESTED, 1, 1, 1, 3, 2)))


def case_n():
    waits = record(0, 1, A, 0, 9)
    to_1, to_0 = gossip(0, 2, [1], waits), gossip(1, 2, [1], waits)
    unasked = (ask(7), verdict(UNASKED, 0, 0, 0))
    add("case-n-screen-0", (0, 2), (press(A, 0, 9), taken(1, 9)), unasked, (ask(7, 1, 9), wait(0x03)), (send, to_1), (to_0, heard(0, 0)),
        (send, to_1), unasked, (press(A), already(1, 9)))
    add("case-n-screen-1", (1, 2), (to_1, heard(1, 0)), unasked, (send, to_0), (press(A), already(1, 9)), (ask(7, 1, 9), no(3)))
    eight, ninth = [(press(nth(x)), taken(0, x)) for x in range(1, 9)], (press(nth(9)), taken(0, 9))
    add("case-n-ninth-tap-applies-and-drops", (1, 2), (to_1, heard(1, 0)), *eight, (ask(7), verdict(UNASKED, 0, 0, 0, 0, 8)), ninth,
        (ask(7, 1, 9), verdict(ACCEPTED, 1, 1, 0, 1, 9)), (send, gossip(1, 2, [1, 9], *many(1, 1, 9))))


def case_o_log():
    taps = [(press(nth(x)), taken(x)) for x in range(1, LOG_MAX + 1)]
    full = (press(nth(LOG_MAX + 1)), no(9))
    add(f"case-o-log-of-{LOG_MAX - 1}-takes-one", (0, 3), *taps)
    add(f"case-o-log-of-{LOG_MAX}-refuses", (0, 3), *taps, full, (press(nth(LOG_MAX)), already(LOG_MAX)),
        (ask(1, LOG_MAX), verdict(ACCEPTED, 1, LOG_MAX, 0, LOG_MAX)))
    add("case-o-room-freed-is-used-again", (0, 2), *taps, full, (gossip(1, 2, [LOG_MAX]), heard(0, 0)), (send, gossip(0, 2, [LOG_MAX])),
        (press(nth(LOG_MAX + 1)), taken(LOG_MAX + 1)), (send, gossip(0, 2, [LOG_MAX + 1], *many(0, LOG_MAX + 1, LOG_MAX + 1))))


def in_blocks(last):
    """Gossip from 0 of 2 that brings its records 1 to last, as many in a message as may be, each applied and dropped at once."""
    blocks = [many(0, first, min(first + LOG_MAX - 1, last)) for first in range(1, last + 1, LOG_MAX)]
    return [(gossip(0, 2, [block[-1].number], *block), heard(len(block), len(block))) for block in blocks]


def taps_with_room():
    """As many taps on 0 of 2 as a book may know; whenever the log is full, 1 says that it has them."""
    pairs = []
    for x in range(1, KNOWN_MAX + 1):
        pairs.append((press(nth(x)), taken(x)))
        if x % LOG_MAX == 0 and x < KNOWN_MAX:
            pairs.append((gossip(1, 2, [x]), heard(0, 0)))
    return pairs


def case_o_known():
    before, last_log = KNOWN_MAX - 1, KNOWN_MAX - LOG_MAX
    spent = (press(B), no(7)), (press(A), already(before, 1)), (press(nth(5)), already(before, 1))
    before_spent = (press(B._replace(showing=0)), no(1)), (press(B, 0, 2), no(3)), (press(A, 0, 2), no(3))
    add(f"case-o-known-{before}-takes-and-{KNOWN_MAX}-refuses", (1, 2), *in_blocks(before), (press(A), taken(0, 1)), *spent, *before_spent,
        (gossip(0, 2, [KNOWN_MAX], *many(0, KNOWN_MAX, KNOWN_MAX)), no(7)), (ask(1, before, 1), verdict(ACCEPTED, 1, before, 0, before, 1)),
        (send, gossip(1, 2, [before, 1], record(1, 1, A))))
    add(f"case-o-{KNOWN_MAX}-taps-of-one-screen", (0, 2), *taps_with_room(), (press(A), no(7)), (press(nth(1)), already(KNOWN_MAX)))
    add(f"gossip-up-to-{KNOWN_MAX}-known-and-not-beyond", (1, 2), *in_blocks(KNOWN_MAX),
        (gossip(0, 2, [KNOWN_MAX + 1], *many(0, KNOWN_MAX + 1, KNOWN_MAX + 1)), no(7)), (press(A), no(7)), (send, gossip(1, 2, [KNOWN_MAX])))
    waiting = gossip(0, 2, [KNOWN_MAX], *many(0, last_log + 1, KNOWN_MAX, 0, TOP)), heard(LOG_MAX, 0)
    add("tap-7-before-9", (1, 2), *in_blocks(last_log), waiting, (press(A), no(7)), (press(nth(KNOWN_MAX)), already(KNOWN_MAX, TOP)))
    add("gossip-7-before-9", (1, 2), *in_blocks(last_log), (press(A), taken(0, 1)),
        (gossip(0, 2, [KNOWN_MAX], *many(0, last_log + 1, KNOWN_MAX)), no(7)),
        (gossip(0, 2, [last_log + 1], *many(0, last_log + 1, last_log + 1)), heard(1, 1)))


# ---------------------------------------------------------------- framing

def opening():
    rest = press(A) + send
    raw("empty-input", b"", STOP)
    raw("end-inside-open-after-kind", start(0, 2)[:1], STOP)
    raw("end-inside-open-after-screen", start(0, 2)[:2], STOP)
    for kind in 0, GOSSIP, RECORD, TAP, QUESTION, REFUSAL, SEND, SEND + 1, BYTE_TOP:
        raw(f"kind-{kind}-before-open", bytes([kind]) + bytes(60) + start(0, 2) + rest, STOP)
    for i, n in (0, 0), (0, 1), (1, 1), (0, MOST_SCREENS + 1), (2, 2), (MOST_SCREENS, MOST_SCREENS), (7, 3), (BYTE_TOP, BYTE_TOP):
        raw(f"open-{i}-of-{n}-refused", start(i, n) + rest, no(2))
    raw("refused-open-then-a-cut-message", start(2, 2) + press(A)[:5], no(2))
    raw("refused-open-at-the-end", start(0, MOST_SCREENS + 1), no(2))
    for i, n in (0, 2), (1, 2), (2, 3), (MOST_SCREENS - 1, MOST_SCREENS):
        add(f"open-{i}-of-{n}-sends-nothing-known", (i, n), (send, gossip(i, n, [])))
    add("open-and-a-silent-end", (0, 2))


def unexpected_kinds():
    bodies = {RECORD: wire_record(A_REC), TAKEN: taken(1), ALREADY: already(1), VERDICT: verdict(ACCEPTED, 1, 1, 0, 1), WAIT: wait(1), REFUSAL: no(4),
              GOSSIP_TAKEN: heard(1, 1), OPEN: start(0, 3)}
    bodies.update({kind: bytes([kind]) for kind in (0, SEND + 1, BYTE_TOP)})
    for kind, data in bodies.items():
        add(f"kind-{kind}-stops", (0, 3), TAKE_A, (data, STOP), (send, SILENCE))
    add("second-open-right-after-the-first", (0, 3), (start(0, 3), STOP), (send, SILENCE))
    add("second-open-that-would-be-refused", (0, 3), (start(0, MOST_SCREENS + 1), STOP), (send, SILENCE))
    add("kind-right-after-a-refusal-stops", (0, 3), (press(A, 1), no(3)), (bytes([0]), STOP), (press(A), SILENCE))
    for byte in 0, GOSSIP, TAP, QUESTION, OPEN, BYTE_TOP:
        add(f"trailing-byte-{byte}", (0, 2), TAKE_A, (send, gossip(0, 2, [1], A_REC)), (bytes([byte]), STOP))
    add(f"trailing-byte-{SEND}-is-a-send", (0, 2), TAKE_A, (send, gossip(0, 2, [1], A_REC)))


def cuts():
    for size in 1, 2, 5, 9, 10, 11, BODY[TAP]:
        add(f"tap-cut-after-{size}", (0, 3), TAKE_A, (press(B)[:size], STOP))
    for size in 1, 2, 20, BODY[QUESTION]:
        add(f"question-cut-after-{size}", (0, 3), TAKE_A, (ask(7)[:size], STOP))
    for size in 1, 2, 4, 5, BODY[GOSSIP]:
        add(f"gossip-head-cut-after-{size}", (1, 3), (AFTER_B[:size], STOP))
    for size in HEAD_SIZE, *[HEAD_SIZE + place for place in (1, LABEL_AT, TAP_AT, BODY[RECORD], RECORD_SIZE)], len(AFTER_B) - 1:
        add(f"gossip-of-two-records-cut-after-{size}", (1, 3), (AFTER_B[:size], STOP))
    add(f"tap-cut-though-its-prompt-is-{PROMPTS}", (0, 3), (press(NO_PROMPT)[:-1], STOP))
    add("gossip-cut-though-its-head-breaks-a-rule", (1, 3), (gossip(0, MOST_SCREENS + 1, [1], A_REC)[:-1], STOP))
    add("gossip-cut-though-it-is-old", (1, 3), HEARD_B, (AFTER_B[:-1], STOP))
    add("gossip-count-says-more-than-there-is", (1, 3), (gossip(0, 3, [2], A_REC, B_REC, count=3), STOP))
    add("gossip-count-says-less-than-there-is", (1, 3), (gossip(0, 3, [1], A_REC, B_REC, count=1), heard(1, 1) + STOP), (send, SILENCE))


def counts():
    most, more = many(0, 1, LOG_MAX), many(0, 1, LOG_MAX + 1)
    full, over = gossip(0, 3, [LOG_MAX], *most), f"count-{COUNT_MAX + 1}"
    add(f"count-{COUNT_MAX}-of-{COUNT_MAX}", (1, 3), (full, heard(LOG_MAX, LOG_MAX)), (send, gossip(1, 3, [LOG_MAX], *most)))
    add(f"{over}-with-all-its-records", (1, 3), (gossip(0, 3, [LOG_MAX + 1], *more), STOP), (send, SILENCE))
    add(f"{over}-and-no-more", (1, 3), (gossip(0, 3, [LOG_MAX + 1], count=COUNT_MAX + 1), STOP))
    add(f"count-{COUNT_TOP}", (1, 3), (gossip(0, 3, [1], A_REC, count=COUNT_TOP), STOP), (send, SILENCE))
    add(f"{over}-in-a-head-that-breaks-a-rule", (1, 3), (gossip(9, MOST_SCREENS + 1, [1], count=COUNT_MAX + 1), STOP), (send, SILENCE))
    add(f"{over}-from-another-house", (1, 3), (gossip(0, 4, [LOG_MAX + 1], *more), STOP), (send, SILENCE))
    add(f"count-{COUNT_MAX}-and-the-last-record-cut", (1, 3), (full[:-1], STOP))


def record_kinds():
    """A wrong kind at a record's place stops the program, whatever follows and whatever else the message breaks."""
    first, last = with_kind(AFTER_B, 0, TAP), with_kind(AFTER_B, 1, TAP)
    good = (AFTER_B, SILENCE), (send, SILENCE)
    add("first-record-of-kind-0", (1, 3), (with_kind(AFTER_B, 0, 0), STOP), *good)
    add("first-record-of-kind-3", (1, 3), (press(A), taken(0, 1)), (first, STOP), *good)
    add("last-record-of-kind-3", (1, 3), (last, STOP), *good)
    add(f"last-record-of-{COUNT_MAX}-of-kind-3", (1, 3), (with_kind(gossip(0, 3, [LOG_MAX], *many(0, 1, LOG_MAX)), COUNT_MAX - 1, TAP), STOP), *good)
    add("record-of-kind-3-in-old-gossip", (1, 3), HEARD_B, (last, STOP), *good)
    add("record-of-kind-3-behind-a-head-that-breaks-a-rule", (1, 3), (with_kind(gossip(0, MOST_SCREENS + 1, [1], A_REC), 0, TAP), STOP), *good)
    for size in HEAD_SIZE + 1, len(first) - 1:
        add(f"record-of-kind-3-and-cut-after-{size}", (1, 3), (first[:size], STOP))


# ---------------------------------------------------------------- damaged fields; after each, reading goes on behind the whole message

def tap_fields():
    goes_on = (press(A), taken(1))
    damaged = {f"prompt-{PROMPTS}": NO_PROMPT, "showing-0": A._replace(showing=0), "answer-0": A._replace(answer=0),
               "answer-3": A._replace(answer=3)}
    for name, tap in damaged.items():
        add(f"tap-{name}", (0, 3), (press(tap), no(1)), goes_on)
    add("tap-label-part-past-n-is-2", (0, 2), (press(A, 0, 0, 1), no(1)), goes_on)
    add("tap-label-part-past-n-is-3", (0, 3), (press(A, 0, 0, 0, 1), no(1)), goes_on)
    add(f"tap-last-label-part-past-n-is-{LAST}", (0, LAST), (press(A, *[0] * LAST, 1), no(1)), goes_on)
    add(f"tap-last-label-part-when-n-is-{MOST_SCREENS}", (0, MOST_SCREENS), (press(A, *[0] * LAST, TOP), taken(1, *[0] * (LAST - 1), TOP)))
    add("tap-fields-at-their-least", (0, 3), (press(Tap(0, 0, 0, 1, ACCEPT)), taken(1)), (ask(0, 1), verdict(ACCEPTED, 1, 1, 0, 1)))
    add("tap-fields-at-their-most", (0, 3), (press(MOST), taken(1)), (ask(PROMPTS - 1, 1), verdict(DECLINED, MOST_SHOWING, 0, 1, 1)),
        (send, gossip(0, 3, [1], record(0, 1, MOST))))
    add("tap-label-parts-at-their-most", (1, 3), (press(A, TOP, 0, TOP), taken(TOP, 1, TOP)), (ask(7, TOP, 1, TOP), wait(0x07)))


def question_fields():
    goes_on = (ask(7), verdict(UNASKED, 0, 0, 0))
    add(f"question-prompt-{PROMPTS}", (0, 3), (ask(PROMPTS), no(1)), goes_on)
    add(f"question-prompts-0-and-{PROMPTS - 1}", (0, 3), (ask(0), verdict(UNASKED, 0, 0, 0)), (ask(PROMPTS - 1), verdict(UNASKED, 0, 0, 0)), goes_on)
    add("question-label-part-past-n-is-2", (0, 2), (ask(7, 0, 0, 1), no(1)), goes_on)
    add(f"question-last-label-part-past-n-is-{LAST}", (0, LAST), (ask(7, *[0] * LAST, 1), no(1)), goes_on)
    add("question-every-lacking-bit-but-ours", (3, MOST_SCREENS), (ask(7, 1, TOP, 1, 0, *[1] * (LAST - 3)), wait(2**MOST_SCREENS - 1 - 2**3)))
    add("question-3", (0, 3), (ask(7, 1), no(3)), TAKE_A, (ask(7, 1), verdict(ACCEPTED, 1, 1, 0, 1)), (ask(7, 2), no(3)))
    add("question-1-before-3", (0, 3), (ask(PROMPTS, 1), no(1)), (ask(7, 1, 0, 0, 1), no(1)), goes_on)
    add("question-3-before-wait", (0, 3), (ask(7, 1, 1, 1), no(3)), (ask(7, 0, 1, 1), wait(0x06)))


def gossip_head_fields():
    good = (gossip(0, 3, [1], A_REC), heard(1, 1))
    damaged = {f"n-{n}": gossip(0, n, [1], A_REC) for n in (0, LEAST_SCREENS - 1, MOST_SCREENS + 1, BYTE_TOP)}
    damaged |= {"sender-is-n": gossip(3, 3, [1], A_REC), f"sender-{BYTE_TOP}": gossip(BYTE_TOP, 3, [1], A_REC),
                "stamp-part-past-n": gossip(0, 3, [1, 0, 0, 1], A_REC), "last-stamp-part-past-n": gossip(0, 3, [1, *[0] * (LAST - 1), 1], A_REC)}
    for name, data in damaged.items():
        add(f"gossip-{name}", (1, 3), (data, no(1)), good)
    add("gossip-broken-head-passes-over-two-records", (1, 3), (gossip(3, 3, [2], A_REC, B_REC), no(1)), good)
    add("gossip-broken-head-without-records", (1, 3), (gossip(0, MOST_SCREENS + 1, [1]), no(1)), good)
    inside = record(0, 1, Tap(1, 0x03030303, 4, 0x0C0C, 1), 0, 0x0C0C0C0C, 0x0B000303)
    add("gossip-passed-over-holds-bytes-like-kinds", (1, 3), (gossip(1, 3, [1], inside), no(2)), good)
    add("gossip-last-screen-of-eight", (0, MOST_SCREENS), (gossip(LAST, MOST_SCREENS, [*[0] * LAST, 1], record(LAST, 1, A)), heard(1, 1)),
        (ask(7, *[0] * LAST, 1), verdict(ACCEPTED, 1, 1, 0, *[0] * LAST, 1)))


def record_fields():
    damaged = {"origin-is-n": record(3, 1, A), f"origin-{BYTE_TOP}": record(BYTE_TOP, 1, A), "number-0": record(0, 0, A),
               "number-above-stamp": record(0, 2, A),
               "number-of-an-origin-the-stamp-lacks": record(2, 1, A), "own-label-part-equals-number": record(0, 1, A, 1),
               "own-label-part-above-number": record(0, 1, A, TOP), "label-part-past-n": record(0, 1, A, 0, 0, 0, 1),
               f"prompt-{PROMPTS}": record(0, 1, NO_PROMPT), "showing-0": record(0, 1, A._replace(showing=0)),
               "answer-0": record(0, 1, A._replace(answer=0)), "answer-3": record(0, 1, A._replace(answer=3))}
    good = (gossip(0, 3, [1], A_REC), heard(1, 1))
    for name, bad in damaged.items():
        add(f"record-{name}", (1, 3), (gossip(0, 3, [1], bad), no(1)), good)
    orders = {"equal": [A_REC, A_REC], "numbers-fall": [B_REC, A_REC], "origins-fall": [G_REC, A_REC],
              "equal-places-other-taps": [A_REC, record(0, 1, B)]}
    for name, records in orders.items():
        add(f"records-{name}", (1, 3), (gossip(0, 3, [2, 0, 1], *records), no(1)), good)
    add("record-own-label-part-just-below-number", (1, 3), (gossip(0, 3, [2], A_REC, record(0, 2, B, 1)), heard(2, 2)))
    add("record-known-and-damaged", (1, 3), HEARD_B, (gossip(0, 3, [3], record(0, 1, A._replace(answer=3)), *many(0, 3, 3)), no(1)),
        (gossip(0, 3, [3], *many(0, 3, 3)), heard(1, 1)))
    add("record-known-and-other-is-not-compared", (1, 3), HEARD_B, (gossip(0, 3, [3], record(0, 1, G, 0, 5), *many(0, 3, 3)), heard(1, 1)),
        (send, gossip(1, 3, [3], A_REC, B_REC, *many(0, 3, 3))), (ask(7, 2), verdict(CONTESTED, 1, 1, 1, 3)))


# ---------------------------------------------------------------- refusals and their order

FULL = (gossip(0, 3, [LOG_MAX], *many(0, 1, LOG_MAX)), heard(LOG_MAX, LOG_MAX))
NEXT = many(0, LOG_MAX + 1, LOG_MAX + 1)


def tap_order():
    bad = A._replace(answer=3)
    add("tap-3", (1, 3), (press(A, 0, 1), no(3)), (press(A, 9, 0, 9), taken(9, 1, 9)), (press(B, 0, 1), taken(0, 2)))
    add("tap-1-before-3", (0, 3), (press(bad, 1), no(1)), (press(A, 1, 0, 0, 1), no(1)), (press(A, 1), no(3)))
    add("tap-1-before-already", (0, 3), TAKE_A, (press(A, 0, 0, 0, 1), no(1)), (press(A), already(1)))
    add("tap-3-before-already", (0, 3), TAKE_A, (press(A, 2), no(3)), (press(A, 1), already(1)))
    add("tap-on-a-full-log-1-and-3-and-already-before-9", (1, 3), FULL, (press(bad), no(1)), (press(A, 0, 1), no(3)),
        (press(nth(7)), already(LOG_MAX)), (press(A), no(9)))


def gossip_order_at_two():
    """Another house, or ourselves as the sender: nothing after 2 is looked at, and only 1 comes before it."""
    add("gossip-2-another-n", (1, 3), (gossip(0, 4, [1], A_REC), no(2)), (gossip(0, 2, [1], A_REC), no(2)),
        (gossip(LAST, MOST_SCREENS, [0, 0, 0, 1]), no(2)))
    add("gossip-2-from-ourselves", (1, 3), (gossip(1, 3, [1], A_REC), no(2)), (gossip(1, 3, []), no(2)))
    add("gossip-1-before-2", (1, 3), (gossip(0, 4, [1, 0, 0, 0, 1], A_REC), no(1)), (gossip(1, 3, [1], B_REC), no(1)), (gossip(5, 4, []), no(1)),
        (gossip(0, 2, [0, 0, 1]), no(1)))
    add("gossip-2-before-4", (1, 3), HEARD_B, (gossip(1, 3, [2]), no(2)), (gossip(0, 4, [2]), no(2)))
    add("gossip-2-before-5", (1, 3), HEARD_B, (gossip(1, 3, [1, 0, 1], G_REC), no(2)), (gossip(0, 4, [1, 0, 1], G_REC), no(2)))
    add("gossip-2-before-6", (1, 3), (gossip(1, 3, [0, 1]), no(2)), (gossip(0, 2, [0, 1]), no(2)))
    add("gossip-2-before-7", (1, 3), (gossip(1, 3, [TOP, 0, TOP]), no(2)), (gossip(0, MOST_SCREENS, [TOP] * MOST_SCREENS), no(2)))
    add("gossip-2-before-8", (1, 3), (gossip(1, 3, [2], B_REC), no(2)), (gossip(0, 4, [2], B_REC), no(2)))
    add("gossip-2-before-9", (1, 3), FULL, (gossip(1, 3, [LOG_MAX + 1], *NEXT), no(2)), (gossip(0, 4, [LOG_MAX + 1], *NEXT), no(2)))


def gossip_order_at_four_and_five():
    add("gossip-4-from-a-fresh-screen", (1, 3), (gossip(0, 3, []), no(4)), (gossip(2, 3, []), no(4)))
    add("gossip-4-equal-and-lower", (1, 3), HEARD_B, (gossip(0, 3, [2]), no(4)), (gossip(0, 3, [1], A_REC), no(4)), (gossip(0, 3, []), no(4)))
    add("gossip-1-before-4", (1, 3), HEARD_B, (gossip(0, 3, [1], B_REC), no(1)), (gossip(0, 3, [2, 0, 0, 1]), no(1)))
    add("gossip-4-goes-by-the-row-and-not-by-what-is-known", (1, 3), HEARD_B, (gossip(2, 3, [2]), heard(0, 0)), (send, gossip(1, 3, [2])),
        (gossip(2, 3, [2]), no(4)))
    add("gossip-5", (1, 3), HEARD_B, (gossip(0, 3, [1, 0, 1], G_REC), no(5)), (gossip(2, 3, [1, 0, 1], G_REC), heard(1, 1)))
    add("gossip-1-before-5", (1, 3), HEARD_B, (gossip(0, 3, [1, 0, 1], B_REC), no(1)))
    add("gossip-5-before-6", (1, 3), HEARD_B, (gossip(0, 3, [1, 1]), no(5)))
    add("gossip-5-before-7", (1, 3), HEARD_B, (gossip(0, 3, [1, 0, TOP]), no(5)))
    add("gossip-5-before-8", (1, 3), HEARD_B, (gossip(0, 3, [1, 0, 1]), no(5)))
    add("gossip-5-before-9", (1, 3), FULL, (gossip(0, 3, [LOG_MAX - 1, 0, 1], G_REC), no(5)))


def gossip_order_at_six_and_seven():
    add("gossip-6", (1, 3), (press(A), taken(0, 1)), (gossip(0, 3, [0, 2]), no(6)), (gossip(0, 3, [0, 1]), heard(0, 0)))
    add("gossip-1-before-6", (1, 3), (gossip(0, 3, [0, 1, 0, 1]), no(1)))
    add("gossip-6-before-7", (1, 3), (gossip(0, 3, [TOP, 1]), no(6)), (gossip(0, 3, [0, TOP]), no(6)))
    add("gossip-6-before-8", (1, 3), (gossip(0, 3, [2, 1], B_REC), no(6)))
    add("gossip-6-with-the-record-at-hand", (1, 3), (gossip(0, 3, [0, 1], record(1, 1, A)), no(6)))
    add("gossip-6-before-9", (1, 3), FULL, (gossip(0, 3, [LOG_MAX + 1, 1], *NEXT), no(6)))
    add("gossip-1-before-7", (1, 3), (gossip(0, 3, [KNOWN_MAX + 1], record(0, 0, A)), no(1)))
    add("gossip-7-before-8", (1, 3), (gossip(0, 3, [KNOWN_MAX + 1]), no(7)), (gossip(0, 3, [TOP]), no(7)), (gossip(0, 3, [KNOWN_MAX]), no(8)))
    sums = gossip(0, MOST_SCREENS, [2**31, 2**31, 1], A_REC), gossip(0, MOST_SCREENS, [TOP] * LAST), gossip(0, MOST_SCREENS, [TOP, 1])
    add("gossip-7-sum-past-32-bits", (LAST, MOST_SCREENS), *[(told, no(7)) for told in sums], (gossip(0, MOST_SCREENS, [TOP, 2], A_REC), no(7)))
    add("gossip-7-counts-what-only-we-know", (1, 3), FULL, (gossip(2, 3, [0, 0, KNOWN_MAX - LOG_MAX + 1]), no(7)),
        (gossip(2, 3, [0, 0, KNOWN_MAX - LOG_MAX]), no(8)))
    add("gossip-7-before-8-and-9", (1, 3), FULL, (gossip(0, 3, [KNOWN_MAX + 1], *NEXT), no(7)))


def gossip_order_at_eight_and_nine():
    three = many(0, 1, 3)
    add("gossip-8-first-middle-or-last-is-missing", (1, 3), (gossip(0, 3, [3], *three[1:]), no(8)), (gossip(0, 3, [3], three[0], three[2]), no(8)),
        (gossip(0, 3, [3], *three[:2]), no(8)), (gossip(0, 3, [3]), no(8)), (gossip(0, 3, [3], *three), heard(3, 3)))
    add("gossip-8-of-an-origin-not-the-sender", (1, 3), (gossip(0, 3, [1, 0, 1], A_REC), no(8)), (gossip(0, 3, [1, 0, 1], A_REC, G_REC), heard(2, 2)))
    add("gossip-known-records-need-not-be-there", (1, 3), HEARD_B, (gossip(0, 3, [3], *many(0, 3, 3)), heard(1, 1)))
    add("gossip-1-before-8", (1, 3), (gossip(0, 3, [3], three[1], three[0]), no(1)))
    add("gossip-8-before-9", (1, 3), FULL, (gossip(0, 3, [LOG_MAX + 2], *many(0, LOG_MAX + 2, LOG_MAX + 2)), no(8)))
    add("gossip-1-before-9", (1, 3), FULL, (gossip(0, 3, [LOG_MAX + 1], record(0, LOG_MAX + 1, A, LOG_MAX + 1)), no(1)))
    room, all_of_them = LOG_MAX - 1, gossip(0, 3, [LOG_MAX], *many(0, 1, LOG_MAX))
    add("gossip-9", (1, 3), (press(A), taken(0, 1)), (all_of_them, no(9)), (gossip(0, 3, [room], *many(0, 1, room)), heard(room, room)),
        (gossip(0, 3, [LOG_MAX], *many(0, LOG_MAX, LOG_MAX)), no(9)), (press(B), no(9)), (press(A), already(room, 1)))
    brings_one = gossip(2, 3, [LOG_MAX, 0, 1], record(2, 1, A))
    add("gossip-9-looks-at-the-log-before-the-step", (1, 3), FULL, (brings_one, no(9)), (gossip(2, 3, [LOG_MAX]), heard(0, 0)),
        (brings_one, heard(1, 1)), (send, gossip(1, 3, [LOG_MAX, 0, 1], record(2, 1, A))))
    few = LOG_MAX - 56
    add("gossip-9-counts-new-records-only", (1, 3), (gossip(0, 3, [few], *many(0, 1, few)), heard(few, few)), (all_of_them, heard(56, 56)),
        (press(A), no(9)))


# ---------------------------------------------------------------- what the answers mean

def verdicts():
    yes, nay, later = Tap(1, 1, 2, 5, ACCEPT), Tap(1, 1, 2, 5, DECLINE), Tap(1, 2, 2, 6, DECLINE)
    earlier = Tap(1, 3, 2, 4, ACCEPT)
    add("verdict-unasked", (0, 3), TAKE_A, (ask(8, 1), verdict(UNASKED, 0, 0, 0, 1)))
    add("verdict-accepted-by-two", (0, 3), (press(yes), taken(1)), (press(yes._replace(front=2)), taken(2)), (ask(2), verdict(ACCEPTED, 5, 2, 0, 2)))
    add("verdict-declined", (0, 3), (press(nay), taken(1)), (ask(2), verdict(DECLINED, 5, 0, 1, 1)))
    add("verdict-contested-by-one-serial-with-two-answers", (0, 3), (press(yes), taken(1)), (press(nay), taken(2)),
        (ask(2), verdict(CONTESTED, 5, 1, 1, 2)))
    add("verdict-later-showing-supersedes", (0, 3), (press(yes), taken(1)), (press(nay), taken(2)), (press(later), taken(3)),
        (ask(2), verdict(DECLINED, 6, 0, 1, 3)), (press(yes), already(3)), (ask(2), verdict(DECLINED, 6, 0, 1, 3)))
    add("verdict-earlier-showing-comes-late", (0, 3), (press(later), taken(1)), (press(earlier), taken(2)), (ask(2), verdict(DECLINED, 6, 0, 1, 2)))
    five = [Tap(1, 1, 2, 5, ACCEPT), Tap(0, 1, 2, 5, ACCEPT), Tap(1, 0, 2, 5, ACCEPT), Tap(1, 1, 3, 5, ACCEPT), Tap(1, 1, 2, 4, ACCEPT), nay]
    add("taps-that-differ-in-one-field", (0, 3), *[(press(tap), taken(x)) for x, tap in enumerate(five, 1)], (ask(2), verdict(CONTESTED, 5, 3, 1, 6)),
        (ask(3), verdict(ACCEPTED, 5, 1, 0, 6)))
    add("question-changes-nothing", (0, 3), TAKE_A, *[(ask(7, 1), verdict(ACCEPTED, 1, 1, 0, 1))] * 2, (ask(7, 0, 1), wait(0x02)),
        *[(send, gossip(0, 3, [1], A_REC))] * 2)


def already_and_waiting():
    two = gossip(0, 3, [1, 0, 1], record(0, 1, A, 0, 0, 9), record(2, 1, A, 9))
    add("already-with-the-first-waiting-record", (1, 3), (two, heard(2, 0)), (press(A), already(1, 0, 9)), (ask(7, 1, 0, 9), wait(0x05)))
    add("already-with-our-own-waiting-record", (0, 3), (press(A, 0, 9), taken(1, 9)), (press(A, 1, 3), already(1, 9)), (press(B), taken(2)),
        (press(A), already(1, 9)), (press(B), already(2)))
    both = gossip(0, 3, [1, 0, 1], record(0, 1, A, 0, 0, 9), record(2, 1, A))
    add("already-counted-wins-over-waiting", (1, 3), (both, heard(2, 1)), (press(A), already(0, 0, 1)), (ask(7), verdict(ACCEPTED, 1, 1, 0, 0, 0, 1)))
    ahead = record(1, 1, A, 5)
    add("already-stamp-may-be-refused-as-a-label", (0, 3), (gossip(1, 3, [0, 1], ahead), heard(1, 0)), (press(A), already(5, 1)),
        (ask(7, 5, 1), no(3)), (press(B, 5, 1), no(3)))
    retry = gossip(1, 2, [0, 1], record(1, 1, A))
    add("retry-on-two-screens-counts-once", (0, 2), TAKE_A, (retry, heard(1, 1)), (ask(7, 1, 1), verdict(ACCEPTED, 1, 1, 0, 1, 1)),
        (press(A), already(1, 1)), (send, gossip(0, 2, [1, 1], A_REC)))
    add("retry-in-one-gossip-applies-two-records", (1, 3), (gossip(0, 3, [1, 0, 1], A_REC, record(2, 1, A, 1)), heard(2, 2)),
        (ask(7, 1, 0, 1), verdict(ACCEPTED, 1, 1, 0, 1, 0, 1)), (send, gossip(1, 3, [1, 0, 1], A_REC, record(2, 1, A, 1))))


def steps_that_apply():
    ahead = record(1, 1, G, 2)
    add("tap-applies-what-waited-for-our-number", (0, 2), (gossip(1, 2, [0, 1], ahead), heard(1, 0)), TAKE_A, (ask(7), verdict(ACCEPTED, 1, 1, 0, 1)),
        TAKE_B, (ask(7, 2, 1), verdict(ACCEPTED, 2, 1, 0, 2, 1)), (send, gossip(0, 2, [2, 1], A_REC, B_REC)))
    chain = [record(2, 1, A), record(2, 2, B, 1), record(2, 3, G, 1, 0, 1)]
    add("gossip-applies-what-waited-and-drops-none", (1, 3), (gossip(2, 3, [0, 0, 3], *chain), heard(3, 1)),
        (ask(7), verdict(ACCEPTED, 1, 1, 0, 0, 0, 1)), (ask(7, 1, 0, 3), wait(0x05)), (gossip(0, 3, [1], *many(0, 1, 1)), heard(1, 3)),
        (ask(7, 1, 0, 3), verdict(ACCEPTED, 2, 1, 0, 1, 0, 3)), (send, gossip(1, 3, [1, 0, 3], *many(0, 1, 1), *chain)))
    add("applied-goes-by-the-known-stamp-alone", (0, 3), (gossip(2, 3, [0, 1, 1], record(1, 1, A, 0, 0, 5), record(2, 1, B, 0, 1)), heard(2, 1)),
        (ask(7), verdict(DECLINED, 1, 0, 1, 0, 1, 1)), (ask(7, 0, 1, 5), wait(0x04)))
    add("question-value-stamp-rules-not-the-known-stamp", (0, 3), (press(A, 0, 9), taken(1, 9)), (ask(7, 1), wait(0x01)), (press(B), taken(2)),
        (ask(7, 1), verdict(DECLINED, 1, 0, 1, 2)))
    add("one-gossip-drops-what-was-applied-long-ago", (0, 3), TAKE_A, TAKE_B, (gossip(1, 3, [1]), heard(0, 0)),
        (send, gossip(0, 3, [2], A_REC, B_REC)), (gossip(2, 3, [2]), heard(0, 0)), (send, gossip(0, 3, [2], B_REC)),
        (gossip(1, 3, [2]), heard(0, 0)), (send, gossip(0, 3, [2])))
    other_stamp = record(0, 1, A, 0, 5)
    add("record-with-a-stamp-not-covered-comes-again", (2, 3), (gossip(0, 3, [1], other_stamp), heard(1, 0)),
        (gossip(1, 3, [1], other_stamp), heard(0, 0)), (send, gossip(2, 3, [1], other_stamp)))


# ---------------------------------------------------------------- what the program `screen` is run on

def screens_run():
    """Document 01's whole case, and then every kind of message: gossip with records, all replies, refusals, and a lone record, which stops it."""
    whole = start(0, 2) + press(A) + send
    assert whole == hexed(WHOLE_CASE_IN)
    decline, later = record(1, 1, Tap(6, 1, 7, 1, DECLINE)), record(1, 2, Tap(6, 2, 7, 2, ACCEPT), 1)
    told = gossip(1, 2, [1, 2], A_REC, decline, later)
    pairs = [
        (gossip(1, 2, [1, 1], A_REC, decline, later), no(1)), (told, heard(2, 2)), (told, no(4)),
        (ask(7, 1, 2), verdict(ACCEPTED, 2, 1, 0, 1, 2)), (ask(7, 1, 3), wait(0x02)), (press(A), already(1, 2)),
        (press(nth(1), 2), no(3)), (press(Tap(5, 3, PROMPTS, 1, ACCEPT)), no(1)), (gossip(0, 2, [1, 3]), no(2)),
        (gossip(1, 2, [1, 4], record(1, 4, nth(4))), no(8)), (gossip(1, 2, [2, 2]), no(6)), (gossip(1, 2, [1, KNOWN_MAX]), no(7)),
        (press(B, 1, 2), taken(2, 2)), (send, gossip(0, 2, [2, 2], record(0, 2, B, 1, 2))), (ask(7), verdict(ACCEPTED, 2, 1, 0, 2, 2))]
    raw("screen", whole + b"".join(asked for asked, _ in pairs) + wire_record(A_REC) + send,
        hexed(WHOLE_CASE_OUT) + b"".join(reply for _, reply in pairs) + STOP)


# ---------------------------------------------------------------- houses whose screens talk to each other

class Taped(Screen):
    """A screen of the model that keeps the bytes it got and gave."""

    def __init__(self, i, n):
        super().__init__(i, n)
        self.got, self.gave = start(i, n), b""

    def answer(self, data):
        reply = super().answer(data)
        self.got, self.gave = self.got + data, self.gave + reply
        return reply


def house(n):
    return [Taped(i, n) for i in range(n)]


def keep_tapes(name, screens):
    for screen in screens:
        raw(f"{name}-screen-{screen.i}", screen.got, screen.gave)


def exchange_of_three():
    """Screen 2 takes a tap that waits on a label; it applies there when 0's gossip comes by way of 1, and at the end no log holds anything."""
    zero, one, two = screens = house(3)
    assert zero.answer(press(A)) == taken(1)
    assert two.answer(press(G, 1)) == taken(1, 0, 1)
    assert one.answer(two.answer(send)) == heard(1, 0)
    assert one.answer(ask(7)) == verdict(UNASKED, 0, 0, 0)
    assert one.answer(zero.answer(send)) == heard(1, 2)
    assert two.answer(one.answer(send)) == heard(1, 2)
    assert zero.answer(two.answer(send)) == heard(1, 1)
    for j, i, brings in (1, 0, heard(0, 0)), (0, 1, heard(0, 0)), (0, 2, heard(0, 0)), (2, 1, heard(0, 0)):
        assert screens[i].answer(screens[j].answer(send)) == brings
    for screen in screens:
        assert screen.answer(ask(7, 1, 0, 1)) == verdict(ACCEPTED, 2, 1, 0, 1, 0, 1)
        assert screen.answer(send) == gossip(screen.i, 3, [1, 0, 1])
    keep_tapes("exchange-of-three", screens)


def dice(seed):
    """Numbers below a bound, the same on every machine."""
    def roll(bound):
        nonlocal seed
        seed = (seed * 6364136223846793005 + 1442695040888963407) % 2**64
        return (seed >> 33) % bound
    return roll


def some_label(roll, screen):
    """What this screen knows, with each part lowered or raised a little; its own part is raised now and then (refusal 3)."""
    parts = [max(0, part + roll(4) - 2) for part in screen.known[:screen.n]]
    if roll(8):
        parts[screen.i] = min(parts[screen.i], screen.known[screen.i])
    return parts


def mixed_walk(n, steps, seed):
    """A house in which taps, questions and gossip, new and stale, come in a mixed order; at the end all screens agree."""
    roll, screens, in_the_air = dice(seed), house(n), []
    for _ in range(steps):
        screen, move = screens[roll(n)], roll(8)
        if move < 3:
            screen.answer(press(Tap(roll(2), roll(6), roll(2), 1 + roll(2), 1 + roll(2)), *some_label(roll, screen)))
        elif move == 3:
            screen.answer(ask(roll(2), *some_label(roll, screen)))
        elif move < 6 or not in_the_air:
            in_the_air.append(screen.answer(send))
        else:
            screen.answer(in_the_air[-1 - roll(min(4, len(in_the_air)))])
    settle(screens)
    keep_tapes(f"mixed-walk-of-{n}", screens)


def settle(screens):
    """Everybody tells everybody, twice; then all give the same answers."""
    for _ in range(2):
        for sender in screens:
            told = sender.answer(send)
            for screen in screens:
                screen.answer(told)
    for prompt in 0, 1:
        assert len({screen.answer(ask(prompt)) for screen in screens}) == 1


# ---------------------------------------------------------------- document 01's own figures, as plain hex

def hexed(text):
    """Hex digits, where *n stands for n zero bytes."""
    return b"".join(bytes(int(word[1:])) if word[0] == "*" else bytes.fromhex(word) for word in text.split())


WHOLE_CASE_IN = "0B 00 02  03 05 00000001 07 0001 01 *32  0C"
WHOLE_CASE_OUT = "05 00000001 *28  01 00 02 0001 00000001 *28  02 00 00000001 *32 05 00000001 07 0001 01"
CASE_E_GOSSIP = "01 01 03 0002 00000002 *28  02 00 00000001 *32 05 00000001 07 0001 01  02 00 00000002 *32 05 00000002 07 0001 02"
FIGURES = {
    "whole-case": WHOLE_CASE_OUT,
    "case-a": "05 00000001 *28  07 01 0001 00000001 00000000 00000001 *28",
    "case-b": "05 00000001 *28  05 00000002 *28  07 03 0001 00000001 00000001 00000002 *28",
    "case-c": "05 00000001 *28  05 00000002 *28  06 00000002 *28",
    "case-d": "08 01",
    "case-e": "0A 0002 0002  " + CASE_E_GOSSIP,
    "case-f": "0A 0002 0002  09 04",
    "case-g": "05 00000001 00000000 00000001 *20  07 00 0000 00000000 00000000 *32  08 05",
    "case-h": "05 00000001 00000000 00000001 *20  0A 0002 0003  07 01 0002 00000001 00000000 00000002 00000000 00000001 *20",
    "case-i": "05 00000001 *28  05 00000002 *28  09 03  05 00000003 *28",
    "case-j": "09 08",
    "case-k": "09 06",
    "case-l": "05 00000001 00000000 00000001 *20  0A 0002 0003  07 01 0002 00000001 00000000 00000002 00000000 00000001 *20  09 05",
    "case-m-screen-1": "0A 0001 0001  01 01 02 0000 00000001 *28  09 04  07 01 0001 00000001 00000000 00000001 *28",
    "empty-input": "09 01",
    "open-0-of-9-refused": "09 02",
    "open-and-a-silent-end": "",
}


def check_figures():
    assert vectors["whole-case"][0] == hexed(WHOLE_CASE_IN)
    assert len(hexed(WHOLE_CASE_OUT)) == 117
    for name, figures in FIGURES.items():
        assert vectors[name][1] == hexed(figures), name


# ---------------------------------------------------------------- the files

def all_vectors():
    for part in (document_cases, case_m, case_n, case_o_log, case_o_known, opening, unexpected_kinds, cuts, counts, record_kinds, tap_fields,
                 question_fields, gossip_head_fields, record_fields, tap_order, gossip_order_at_two, gossip_order_at_four_and_five,
                 gossip_order_at_six_and_seven, gossip_order_at_eight_and_nine, verdicts, already_and_waiting, steps_that_apply, screens_run, exchange_of_three):
        part()
    mixed_walk(2, 60, 1)
    mixed_walk(3, 90, 2)
    mixed_walk(MOST_SCREENS, 160, 3)


def data_file():
    out = b""
    for name, (data, output) in vectors.items():
        assert 0 < len(name) <= BYTE_TOP and len(data) <= 60_000 and len(output) <= 60_000, name
        out += bytes([len(name)]) + name.encode("ascii") + pack(">I", len(data)) + data + pack(">I", len(output)) + output
    assert len(out) < 900_000 and 80 <= len(vectors) <= 250
    return out + bytes(1)


def stdout_file():
    total = len(vectors)
    return "".join(f"{name} ok\n" for name in vectors).encode("ascii") + f"{total} of {total} vectors agree\n".encode("ascii")


def print_summary(files):
    refused = Counter((reply[1], NAMES[kind]) for data, _ in vectors.values() for kind, reply in run(data) if reply[0] == REFUSAL)
    assert {number for number, _ in refused} == set(range(1, 10))
    print(f"{len(vectors)} vectors, {sum(map(len, files.values())):,} bytes in {len(files)} files")
    for number in range(1, 10):
        print(f"refusal {number}:", ", ".join(f"{operation} {times}" for (given, operation), times in sorted(refused.items()) if given == number))


def main(arguments):
    if arguments not in ([], ["--check"]):
        sys.exit("usage: vectors.py [--check]")
    all_vectors()
    check_figures()
    given, written = vectors["screen"]
    files = {CRATE / "data" / "vectors": data_file(), CRATE / "stdout": stdout_file(), SCREEN / "stdin": given, SCREEN / "stdout": written}
    print_summary(files)
    for path, content in files.items():
        if not arguments:
            path.parent.mkdir(parents=True, exist_ok=True)
            path.write_bytes(content)
        elif not path.is_file() or path.read_bytes() != content:
            sys.exit(f"{path.relative_to(CRATE.parent.parent)} is not what the script would write")


if __name__ == "__main__":
    main(sys.argv[1:])
