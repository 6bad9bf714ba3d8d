#!/usr/bin/env python3
"""Runs sessions in which members of an object leave and come, and compares the replies with a dict's.

Usage: tools/members.py PROGRAM, which is sjval. Members leave at the front, elsewhere and at the end, come behind the last and
are set, in objects on both sides of each size at which the map under a document turns to buckets, forgets what left or grows; by
keys of many hashes and of one; owned, borrowed and lazy, the first two by text and by known key. A dict of Python keeps its
members in order as a document does. Tells each session that is answered otherwise; the last line is 'N passed, M failed'.
"""
import json
import sys

from sessions import answered


def spread(number):
    return f"k{number:02}"


def colliding(number):
    """The number in ten binary digits, 0 as Aa and 1 as BB: all such texts have one hash."""
    return "".join("BB" if number >> digit & 1 else "Aa" for digit in reversed(range(10)))


class Session:
    """Commands, the replies to them, and the members behind them."""

    def __init__(self, key, members):
        self.key = key
        self.members = {key(number): number for number in range(members)}
        self.next = members
        self.text = json.dumps(self.members, separators=(",", ":"))
        self.lines = []

    def ask(self, reply, *command):
        self.lines.append((json.dumps(command), reply))

    def remove(self, position):
        key = list(self.members)[position]
        self.ask(str(self.members.pop(key)), "remove", [], key)
        self.ask("false", "has", [], key)

    def push(self, number=None):
        """A new member, or that of the number."""
        if number is None:
            number, self.next = self.next, self.next + 1
        self.ask("none", "insert", [], self.key(number), number)
        self.members[self.key(number)] = number

    def set(self, position):
        key = list(self.members)[position]
        before, self.members[key] = self.members[key], self.members[key] + 1000
        self.ask(str(before), "insert", [], key, before + 1000)

    def look(self):
        """All members, in order and each by its key, and one that never was there."""
        self.ask(json.dumps(self.members, separators=(",", ":")), "encode", [])
        self.ask(str(len(self.members)), "len", [])
        for key, number in self.members.items():
            self.ask(str(number), "encode", [key])
        self.ask("missing", "encode", ["k"])


def queue(session, calls):
    """The first leaves and a new one comes, so often; at some turns members are set."""
    for call in range(calls):
        session.remove(0)
        session.push()
        if call % 10 == 7:
            for position in {0, len(session.members) // 2, len(session.members) - 1}:
                session.set(position)
            session.look()


def thin(session, gone, holes):
    """So many leave at the front, and then elsewhere, of each three the one between."""
    for _ in range(gone):
        session.remove(0)
    for hole in range(holes):
        session.remove(2 * hole + 1)
    session.look()


def middle(session, calls):
    for _ in range(calls):
        session.remove(len(session.members) // 2)
        session.look()


def turns(session, calls, each):
    """The first, the last or one in the middle leaves, or a new one comes, so often."""
    for call in range(calls):
        if each == "push":
            session.push()
        else:
            session.remove({"first": 0, "middle": len(session.members) // 2, "last": -1}[each])
        if call % 3 == 2:
            session.look()


def both_ends(session, calls):
    for _ in range(calls):
        session.remove(0)
        session.remove(-1)
        session.look()


def any_order(session, period, fronts):
    """Of each so many that leave, the first few leave at the front and the others elsewhere; a new one comes for each."""
    place = 11
    for call in range(120):
        place = (37 * place + 5) % 1009
        session.remove(0 if call % period < fronts else place % len(session.members))
        session.push()
        if call % 8 > 5:
            session.look()


def end_again(session, calls):
    """One leaves in the middle and the last, and a new one comes."""
    for call in range(calls):
        session.remove(20)
        for _ in range(2 if call % 3 == 0 else 1):
            session.remove(-1)
        session.push()
        session.look()


def come_back(session, calls):
    """Those in the middle leave, and each fourth of them comes again."""
    for call in range(calls):
        number = list(session.members.values())[len(session.members) // 2]
        session.remove(len(session.members) // 2)
        if call % 4 == 0:
            session.push(number)
    session.look()


def ends(session, gone, counted):
    """Members leave at the front, then those that are counted from the end, and then three leave and come in turn."""
    thin(session, gone, 0)
    for position in counted:
        session.remove(-position)
    for each in ["last", "push", "last", "push"]:
        turns(session, 3, each)


# places that stand last in falling, rising and mixed order, and some of them behind a member that stays
ENDS = [
    [1],
    [1, 1, 1],
    [3, 2, 1],
    [2, 1, 1],
    [2, 2, 1],
    [1, 1, 1, 1, 1, 1, 1, 1],
    [8, 7, 6, 5, 4, 3, 2, 1],
    [4, 6, 1, 3, 3, 2, 1, 1],
    [20, 1, 5, 1, 2, 6],
]

# how many members there are, how many leave at the front, and then how many elsewhere: up to 64 members there are 64 buckets, and
# up to 128 twice as many; the last three cases are at a quarter of the buckets, one of these at eight elsewhere too
LEFT = [(48, 0, 0), (64, 2, 1), (64, 5, 8), (100, 24, 7), (64, 8, 8), (64, 15, 1), (100, 26, 6)]


def cases():
    """How many members there are, and what becomes of them."""
    for members in [1, 2, 32, 33, 40, 48, 64, 65, 100]:
        yield members, [(queue, 140)]
    for members in [34, 63, 64, 65, 100]:
        yield members, [(middle, 33)]
    for holes in [1, 2, 7, 8, 9, 17]:
        yield 66, [(thin, 0, holes), (turns, 20, "last")]
        yield 66, [(thin, 0, holes), (turns, 20, "first")]
        yield 64, [(thin, 0, holes), (turns, 40, "push")]
    for left in LEFT:
        for each in ["first", "middle", "last", "push"]:
            yield left[0], [(thin, *left[1:]), (turns, 18, each)]
    for gone in [1, 15, 16, 17, 40]:
        yield 64, [(thin, gone, 0), (turns, 100, "push")]
    for counted in ENDS:
        for gone in [0, 3]:
            yield 50, [(ends, gone, counted)]
    yield 66, [(end_again, 25)]
    yield 40, [(come_back, 20)]
    yield 70, [(both_ends, 34)]
    # every other one leaves at the front; and five do, and behind these eight elsewhere
    yield 90, [(any_order, 2, 1)]
    yield 90, [(any_order, 13, 5)]


def main():
    passed = failed = commands = 0
    for members, steps in cases():
        for key in [spread, colliding]:
            session = Session(key, members)
            for step, *how in steps:
                step(session, *how)
            given = f"{session.text}\n---\n" + "".join(f"{line}\n" for line, _ in session.lines)
            want = "".join(f"{reply}\n" for _, reply in session.lines)
            for words in ["owned", "owned known", "borrowed", "borrowed known", "lazy"]:
                commands += len(session.lines)
                if answered(words, given) == (0, want, ""):
                    passed += 1
                else:
                    failed += 1
                    print(
                        f"{members} members, {key.__name__}, {words}, answered otherwise: {[(step.__name__, *how) for step, *how in steps]}"
                    )
    print(f"{commands} commands")
    print(f"{passed} passed, {failed} failed")
    return 1 if failed else 0


if __name__ == "__main__":
    sys.exit(main())
