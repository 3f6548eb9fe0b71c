#!/usr/bin/env python3
# SPDX-License-Identifier: MIT OR Apache-2.0
"""A plain model of a post's log and of the streams of records, by the rules of docs/FORMAT.md and apart from the proved code.

  model.py list < LOG            what garage_feed says of an input
  model.py verdicts < CASES      for each line of hexadecimal words, what the check answers
  model.py cases                 the lines that crates/trials is run on
  model.py polls < CASES         for each line of a stream and of bounds, what the polls come to
  model.py poll-cases            the lines that crates/poll_trials is run on

A line of poll-cases is a stream, a semicolon, and a bound for each poll: `-` for none, or a slot T.C.P.N, which is its instant,
class, post and number. The stream is one of

  log WORD ..                              a reader of these hexadecimal words
  some WORD ..                             the same, as an option
  absent                                   an option with no reader
  calendar FIRST STEP COUNT EVEN ODD POST  in decimal
"""
import itertools
import random
import sys

FLOOR, HEAD, SILENCE, DATA = range(4)


def kind(word):
    return word >> 30


def low(word):
    return word & 0x3FFFFFFF


def class_of(word):
    return low(word) >> 28


def amount(word):
    return word & 0x0FFFFFFF


def misplaced(body, i):
    word = body[i]
    if kind(word) == HEAD:
        return i + 1 == len(body) or kind(body[i + 1]) != DATA
    if kind(word) == SILENCE:
        return low(word) == 0
    if kind(word) == DATA:
        return i == 0 or kind(body[i - 1]) != HEAD or class_of(word) == 3
    return False


def mistimed(body, i):
    timed = (FLOOR, HEAD)
    if kind(body[i]) in timed:
        return any(kind(w) in timed and low(w) > low(body[i]) for w in body[:i])
    if kind(body[i]) == DATA:
        return any(
            kind(body[j]) == HEAD and low(body[j]) == low(body[i - 1]) and class_of(body[j + 1]) > class_of(body[i])
            for j in range(i - 1)
        )
    return False


def refusal(words):
    """The number and the place of the refusal, or None."""
    if len(words) < 2:
        return 1, 0
    head, count, body = words[0], words[1], words[2:]
    if head < 0xC0000000 or head > 0xC00003FF:
        return 2, 0
    if count != len(body) or count > 16382:
        return 3, 1
    for i in range(len(body)):
        if misplaced(body, i):
            return 4, i + 2
        if mistimed(body, i):
            return 5, i + 2
    return None


def records(words):
    heads = [i for i, w in enumerate(words) if i >= 2 and kind(w) == HEAD]
    post = words[0] & 0x3FF
    return [(low(words[i]), class_of(words[i + 1]), post, n, amount(words[i + 1])) for n, i in enumerate(heads)]


def verdict(words):
    refused = refusal(words)
    if refused:
        return "refused %d at %d" % refused
    return "; ".join(["ok"] + ["%d %d %d %d %d" % r for r in records(words)])


def listing(data):
    """What garage_feed says of bytes: whether it lists them, and the text."""
    if len(data) > 65536:
        return False, "input above 65536 bytes is not read yet"
    if len(data) % 4:
        return False, "input that is not in fours of bytes is not read yet"
    words = [int.from_bytes(data[i:i + 4], "big") for i in range(0, len(data), 4)]
    log = words[:2 + words[1]] if len(words) >= 2 else words
    refused = refusal(log)
    if refused:
        return False, "refused %d at %d of log 0" % refused
    if len(log) < len(words):
        return False, "more than one log is not read yet"
    return True, "".join("%d %d %d %d %d\n" % r for r in records(log))


def reaches(position, before):
    return position is not None and before is not None and position >= before


class Reader:
    """A lawful log as a stream. Slots are tuples, so they compare by instant, class, post and number."""

    def __init__(self, words):
        self.post, self.unread = words[0] & 0x3FF, words[2:]
        self.number, self.silence, self.hint = 0, 0, None

    def poll(self, before):
        while not self.silence and self.unread and kind(self.unread[0]) == FLOOR:
            least = (low(self.unread.pop(0)), 0, 0, 0)
            self.hint = max(self.hint or least, least)
        if reaches(self.hint, before):
            return "none"
        if self.silence:
            self.silence -= 1
            return "pending"
        if not self.unread:
            return "end"
        word = self.unread.pop(0)
        if kind(word) == SILENCE:
            self.silence = low(word) - 1
            return "pending"
        data = self.unread.pop(0)
        self.hint = (low(word), class_of(data), self.post, self.number)
        self.number += 1
        return "item %d %d %d %d %d" % (*self.hint, amount(data))

    def over(self):
        return not self.silence and not self.unread

    def left(self):
        return " left %d" % len(self.unread)


class Calendar:
    def __init__(self, first, step, count, even, odd, post):
        self.to_come = [((first + i * step, 0, post, i), odd if i % 2 else even) for i in range(count)]
        self.hint = None

    def poll(self, before):
        if reaches(self.hint, before):
            return "none"
        if not self.to_come:
            return "end"
        self.hint, rate = self.to_come.pop(0)
        return "item %d %d %d %d %d" % (*self.hint, rate)

    def over(self):
        return not self.to_come

    def left(self):
        return ""


def within(first, step, count, even, odd, post):
    """Whether a calendar's plan is within its limits."""
    last = first + max(count - 1, 0) * step
    return 1 <= step <= 86400 and count <= 1000 and max(even, odd) <= 268435455 and post <= 1023 and last <= 1073741823


class Absent:
    hint = None

    def poll(self, before):
        return "end"

    def over(self):
        return True

    def left(self):
        return ""


def opened(what, rest):
    """The stream that a line names, or the number and the place of its refusal."""
    if what == "absent":
        return Absent(), None
    if what == "calendar":
        plan = [int(n) for n in rest]
        return (Calendar(*plan), None) if within(*plan) else (None, (6, 0))
    words = [int(w, 16) for w in rest]
    refused = refusal(words)
    return (None, refused) if refused else (Reader(words), None)


def slot(text):
    return None if text == "-" else tuple(int(n) for n in text.split("."))


def slot_text(slot):
    return "%d.%d.%d.%d" % slot if slot else "-"


def answer(stream, before):
    said = stream.poll(before) + " hint " + slot_text(stream.hint)
    return said + (" over" if stream.over() else "") + stream.left()


def polled(line):
    case, polls = line.split(";")
    what, *rest = case.split()
    stream, refused = opened(what, rest)
    if refused:
        return "refused %d at %d" % refused
    return "; ".join(answer(stream, slot(poll)) for poll in polls.split())


def headed(body, post=5):
    return [0xC0000000 | post, len(body)] + list(body)


def record(instant, klass, amount=9):
    return [0x40000000 | instant, 0xC0000000 | klass << 28 | amount]


def cases():
    few = [0x00000001, 0x00000002, 0x40000001, 0x40000002, 0x80000000, 0x80000003, 0xC0000007, 0xD0000008, 0xF0000009]
    for length in range(4):
        for body in itertools.product(few, repeat=length):
            yield headed(body)
    # two records, at one instant or two, with nothing, a floor or a silence between them
    for between in ([], [0x00000005], [0x00000006], [0x80000001]):
        for first, instant, second in itertools.product(range(3), (5, 6, 4), range(3)):
            yield headed(record(5, first) + between + record(instant, second))
    good = headed([0x40000064, 0xD000012C])
    yield []
    yield good[:1]
    for head in (0, 0xC0000400, 0xE0000005, 0x80000005, 0xC00003FF, 0xC0000000, 0xFFFFFFFF):
        yield [head] + good[1:]
    for count in (0, 1, 3, 16382, 16383, 0xFFFFFFFF):
        yield good[:1] + [count] + good[2:]
    chance = random.Random(20)
    wide = few + [0, 0x3FFFFFFF, 0x7FFFFFFF, 0xBFFFFFFF, 0xCFFFFFFF, 0xE0000000, 0xEFFFFFFF, 0xFFFFFFFF]
    for _ in range(300):
        yield headed([chance.choice(wide) for _ in range(chance.randrange(4, 9))], chance.randrange(1024))
    for _ in range(300):
        yield headed(lawful(chance), chance.randrange(1024))


def rising(chance, instant=0):
    """A body that keeps the rules, from an instant on."""
    body, least = [], 0
    for _ in range(chance.randrange(1, 8)):
        step = min(chance.choice((0, 0, 1, 60)), 0x3FFFFFFF - instant)
        instant, least = instant + step, 0 if step else least
        what = chance.randrange(3)
        if what == 0:
            body.append(instant)
        elif what == 1:
            body.append(0x80000000 | chance.randrange(1, 4))
        else:
            least = chance.randrange(least, 3)
            body += [0x40000000 | instant, 0xC0000000 | least << 28 | chance.randrange(1 << 28)]
    return body


def lawful(chance):
    """A body that keeps the rules, but for one word in some."""
    body = rising(chance)
    i = chance.randrange(len(body))
    # another word, another low bit, or another class
    body[i] = chance.choice((body[i], chance.randrange(1 << 32), body[i] ^ 1, body[i] ^ 0x10000000))
    return body


def poll_case(what, polls):
    return what + " ; " + " ".join(slot_text(p) for p in polls)


def log_case(words, polls, what="log"):
    return poll_case(" ".join([what] + ["%08X" % w for w in words]), polls)


def to_end(body):
    """How many polls without a bound take a body past its end."""
    return sum(low(w) if kind(w) == SILENCE else kind(w) == HEAD for w in body) + 2


def bounded(bounds, count):
    """No bound, and each bound at each poll."""
    yield [None] * count
    for bound in bounds:
        yield [bound] * count


def mixed(bounds, count):
    """Each bound at every other poll."""
    for bound in bounds:
        yield [bound, None] * count


ENTRIES = [[80], [81], [0x80000001], [0x80000002], record(80, 0), record(80, 1), record(81, 0)]

# least slots of instants, and slots of records, at and around those of the entries
AROUND = [(80, 0, 0, 0), (81, 0, 0, 0), (80, 0, 5, 0), (80, 0, 5, 1), (80, 1, 5, 0), (80, 2, 0, 0), (81, 0, 5, 1),
          (79, 0, 0, 0), (82, 0, 0, 0)]


def short_logs():
    fallen = 0
    for length in range(4):
        for n, entries in enumerate(itertools.product(ENTRIES, repeat=length)):
            body = sum(entries, [])
            if refusal(headed(body)):
                fallen += 1
                if fallen % 16 == 1:
                    yield log_case(headed(body), [None])
                continue
            some = [AROUND[n % len(AROUND)]] if length == 3 else AROUND
            for polls in itertools.chain(bounded(AROUND, to_end(body)), mixed(some, to_end(body))):
                yield log_case(headed(body), polls)


def near(chance, words):
    """No bound, or one at or near a slot of a log."""
    timed = [low(w) for w in words[2:] if kind(w) in (FLOOR, HEAD)] or [0]
    slots = [r[:4] for r in records(words)] + [(t, 0, 0, 0) for t in timed]
    instant, klass, post, number = chance.choice(slots)
    other = chance.randrange(6)
    if other == 0:
        return None
    if other == 1:
        return max(instant + chance.choice((-1, 1)), 0), klass, post, number
    if other == 2:
        return instant, chance.randrange(3), post, number
    if other == 3:
        return instant, klass, max(post + chance.choice((-1, 1)), 0), number
    if other == 4:
        return instant, klass, post, max(number + chance.choice((-1, 1)), 0)
    return instant, klass, post, number


def random_logs(chance):
    for start in [0, 100, 0x3FFFFFFF - 61, 0x3FFFFFFF - 1, 0x3FFFFFFF] * 60:
        words = headed(rising(chance, start), chance.choice((0, 1, 5, 1022, 1023)))
        count = chance.randrange(1, 6) + to_end(words[2:])
        same = near(chance, words)
        yield log_case(words, [chance.choice((same, near(chance, words))) for _ in range(count)])


def odd_logs():
    """Bounds past every slot, a silence that does not end, and words that are no log."""
    last = (0xFFFFFFFF, 2, 0xFFFFFFFF, 0xFFFFFFFF)
    end = headed([0x3FFFFFFF] + record(0x3FFFFFFF, 2, 0x0FFFFFFF), 1023)
    for bound in (last, (0x3FFFFFFF, 2, 1023, 0), (0x3FFFFFFF, 2, 1023, 1), (0x40000000, 0, 0, 0), (0, 0, 0, 0)):
        yield log_case(end, [bound] * 4)
        yield log_case(headed([]), [bound, None] * 2)
    yield log_case(headed([7, 0xBFFFFFFF, 8]), [None, (7, 0, 0, 0), (8, 0, 0, 0), (7, 0, 0, 1), None])
    for words in ([], [0xC0000005], headed([], 1024), headed([]) + [7], headed([0x80000000]), headed([0x40000007])):
        yield log_case(words, [None])
        yield log_case(words, [None], "some")


def calendar_case(plan, polls):
    return poll_case(" ".join(["calendar"] + [str(n) for n in plan]), polls)


PLAN = (80, 2, 3, 20, 30, 5)
EDGES = [
    (0, 1, 0x3FFFFFFA, 0x3FFFFFFB, 0x3FFFFFFC, 0x3FFFFFFE, 0x3FFFFFFF, 0x40000000, 0xFFFFFFFF),
    (0, 1, 86399, 86400, 86401, 0xFFFFFFFF),
    (0, 1, 2, 999, 1000, 1001, 0xFFFFFFFF),
    (0, 1, 268435454, 268435455, 268435456, 0xFFFFFFFF),
    (0, 1, 268435454, 268435455, 268435456, 0xFFFFFFFF),
    (0, 1, 1022, 1023, 1024, 0xFFFFFFFF),
]


def calendar_limits():
    """Each number of a plan at and around its limits, and plans whose last instant is around its own."""
    for place, edges in enumerate(EDGES):
        for edge in edges:
            plan = PLAN[:place] + (edge,) + PLAN[place + 1:]
            yield calendar_case(plan, [None] * 5)
            yield calendar_case(plan, [(82, 0, 5, 1), (0x3FFFFFFF, 0, 5, 1), None] * 2)
    for count, step in itertools.product((0, 1, 2, 3, 1000), (1, 60, 86400)):
        for over in (-1, 0, 1):
            first = 0x3FFFFFFF + over - max(count - 1, 0) * step
            yield calendar_case((first, step, count, 1, 2, 1023), [None] * 4)
        yield calendar_case((0xFFFFFFFF, step, count, 1, 2, 1023), [None])
    yield calendar_case((1, 86400, 1000, 0, 0x0FFFFFFF, 0), [(86401 * i, 0, 0, 0) for i in range(8)])
    yield calendar_case((1, 1, 1000, 3, 4, 9), [None] * 1002)


def short_calendars():
    bounds = [(t, 0, 0, 0) for t in range(79, 86)]
    bounds += [(t, 0, 5, n) for t in (80, 82, 84) for n in range(4)]
    bounds += [(82, 0, 4, 9), (82, 0, 6, 0), (82, 1, 0, 0), (82, 2, 5, 1), (0xFFFFFFFF, 2, 0, 0)]
    for count in range(4):
        plan = PLAN[:2] + (count,) + PLAN[3:]
        for polls in itertools.chain(bounded(bounds, count + 2), mixed(bounds, count + 2)):
            yield calendar_case(plan, polls)


def options():
    for polls in itertools.chain(bounded(AROUND, 2), mixed(AROUND[:1], 2)):
        yield poll_case("absent", polls)
    for length in range(3):
        for entries in itertools.product(ENTRIES, repeat=length):
            words = headed(sum(entries, []))
            if not refusal(words):
                for polls in itertools.chain(bounded(AROUND[2:3], to_end(words[2:])), mixed(AROUND[1:2], to_end(words[2:]))):
                    yield log_case(words, polls, "some")


def poll_cases():
    return itertools.chain(
        short_logs(), random_logs(random.Random(21)), odd_logs(), calendar_limits(), short_calendars(), options()
    )


def main():
    if sys.argv[1:] == ["cases"]:
        for words in cases():
            print(" ".join("%08X" % w for w in words))
    elif sys.argv[1:] == ["verdicts"]:
        for line in sys.stdin:
            print(verdict([int(w, 16) for w in line.split()]))
    elif sys.argv[1:] == ["poll-cases"]:
        for line in poll_cases():
            print(line)
    elif sys.argv[1:] == ["polls"]:
        for line in sys.stdin:
            print(polled(line))
    elif sys.argv[1:] == ["list"]:
        listed, text = listing(sys.stdin.buffer.read())
        print(text, end="" if listed else "\n")
    else:
        sys.exit(__doc__)


main()
