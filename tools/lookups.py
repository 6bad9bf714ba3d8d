#!/usr/bin/env python3
"""Looks up items and members of large arrays and objects, and compares what is found with what the text was made of.

Usage: tools/lookups.py PROGRAM, which is sjval. The documents are lazy, so that each look-up is one in a tape: of some arrays it
keeps places and of some objects tags, and others it searches in runs. Sizes, widths of values and keys lie on both sides of
where each begins and ends. Each object is read once by the first and once by the last member of a key. Tells each document
whose session is answered otherwise; the last line is 'N passed, M failed'.
"""
import json
import sys

from sessions import answered

# behind the last item
PAST = [0, 1, 63, 64, 1000]


def wide(number, width):
    """An array of the number and of as many zeros as make so many nodes."""
    return f"[{number}{(width - 2) * ',0'}]"


def record(number):
    return f'{{"number":{number},"text":"of {number}","list":[1,2,3,4]}}'


def uneven(number):
    """Of eight to fourteen nodes, each of another width than the one before."""
    return wide(number, 8 + number % 7)


def scalars(number):
    return str(number)


def pairs(number):
    return f"[{number},{number}]"


def of_width(width, but=None):
    """Items of so many nodes, but for one with a node fewer."""
    return lambda number: wide(number, width - 1 if number == but else width)


def seam(before, behind, at):
    """Items of one shape, and from that number on of another."""
    return lambda number: before(number) if number < at else behind(number)


def one(item, others, at):
    """One item among others."""
    return lambda number: item(number) if number == at else others(number)


def changing(begin, changes):
    """Items of eleven nodes and of twelve: from that number on they change with each item, so many times."""
    return lambda number: wide(number, 11 + min(max(number - begin, 0), changes) % 2)


def padded(text, length):
    return text + (length - len(text)) * "x"


# keys by their lengths and by what they have in common; no number below 10,000 has the key of another
KEYS = {
    "short": lambda n: padded(str(n), n % 8) if n else "",
    "eight": lambda n: f"{n:08}",
    "middling": lambda n: padded(f"{n:09}", 9 + n % 8),
    "long": lambda n: f"the keys{n:04}mmmmmmmmmmmm{n:04}the same",
    "longer": lambda n: padded(f"{n:017}", 17 + n % 8),
    "ending": lambda n: f"{n:08} and the common ending",
    "fours": lambda n: f"{n // 4:08}{n % 4:02}{n // 4:08}{n % 4:02}{n // 4:08}",
    "escaped": lambda n: f'"{n}\n\u00e9\\{n}',
}
ABSENT = ["absent", "~", "the keysthe same", "the keys~~~~the same", "xxxxxxxx~xxxxxxxx"]


def listed(items):
    return f"[{','.join(items)}]"


def spelled(members):
    return "{" + ",".join(f"{json.dumps(key, ensure_ascii=False)}:{value}" for key, value in members) + "}"


def holder(numbers, parts):
    """An object of so many numbers, and behind them these parts."""
    return spelled([(f"n{i}", str(i)) for i in range(numbers)] + [(f"p{i}", part) for i, part in enumerate(parts)])


def items_of(shape, length, begin=0):
    return [shape(number) for number in range(begin, begin + length)]


def members_of(keys, shape, length, numbers=None, begin=0):
    """Members with the keys of those numbers, or of their own."""
    name = KEYS[keys]
    numbers = numbers or range(begin, begin + length)
    return [(name(number), value) for number, value in zip(numbers, items_of(shape, length, begin))]


def asked_of_array(path, items):
    """Each item by its position, and positions behind the last; what is answered."""
    yield ["len", path], str(len(items))
    for position, item in enumerate(items):
        yield ["encode", [*path, position]], item
    for past in PAST:
        yield ["encode", [*path, len(items) + past]], "missing"
    yield ["encode", [*path, 2**64 - 1]], "missing"


def asked_of_object(path, members, last):
    """Each member by its key, of which the last or the first counts, and keys that are not there; what is answered."""
    found = dict(members if last else members[::-1])
    yield ["keys", path], json.dumps([key for key, _ in members], ensure_ascii=False, separators=(",", ":"))
    for key, value in found.items():
        yield ["encode", [*path, key]], value
    for key in [*ABSENT, *(f"{key}~{key}" for key, _ in members[::5])]:
        if key not in found:
            yield ["encode", [*path, key]], "missing"


def array(shape, length):
    items = items_of(shape, length)
    return f"{length} items", listed(items), lambda _: asked_of_array([], items)


def object_(*form, **how):
    members = members_of(*form, **how)
    return f"{len(members)} members, {form[0]}", spelled(members), lambda last: asked_of_object([], members, last)


def alone():
    """Arrays that are the whole text."""
    ends = [63, 64, 65, 255, 256, 257, 319, 320, 321, 1000]
    for shape in [scalars, pairs, record, uneven]:
        yield from (array(shape, length) for length in ends)
    for shape in [of_width(5), of_width(5, 0), of_width(5, 200)]:
        yield from (array(shape, length) for length in [255, 256, 257])
    # as many changes of width as let places go on, one fewer and one more, in the first 64 items and in the next
    for begin, changes in [(0, 23), (0, 24), (0, 25), (64, 31), (64, 32), (64, 33), (0, 1000)]:
        yield array(changing(begin, changes), 300)
    for at in [1, 63, 64, 65, 128, 192, 256, 384, 511, 512, 513, 576, 640, 704]:
        yield array(seam(record, uneven, at), 1000)
        yield array(seam(uneven, record, at), 1000)
    for at in [0, 1, 62, 63, 64, 65, 127, 128, 255, 256, 319, 320]:
        yield array(one(record, scalars, at), 321)
        yield array(one(record, of_width(5), at), 321)


def in_objects():
    """Arrays in objects, several and one behind many numbers, and in arrays."""
    several = [
        items_of(record, 300),
        items_of(scalars, 256, 1000),
        items_of(uneven, 321, 2000),
        items_of(record, 255, 3000),
        items_of(seam(record, uneven, 4100), 400, 4000),
        [],
        items_of(one(record, scalars, 6128), 256, 6000),
        items_of(seam(uneven, record, 7300), 425, 7000),
    ]
    # more arrays than places are kept of
    many = [items_of(uneven if i % 2 else record, 256, 1000 * i) for i in range(35)]
    for numbers, rows in [(3, several), (56, several), (57, several), (300, several), (0, many)]:
        yield (
            f"arrays behind {numbers} numbers",
            spelled(
                [("first", holder(numbers, map(listed, rows))), ("between", "[1,2]"), ("second", holder(0, map(listed, rows)))]
            ),
            lambda _, rows=rows: (
                asked
                for key in ["first", "second"]
                for i, items in enumerate(rows)
                for asked in asked_of_array([key, f"p{i}"], items)
            ),
        )
    # one node of 32 is looked at: with 19 numbers before it the array is the last one, with 20 it is behind
    row = items_of(of_width(5), 256)
    for numbers in [0, 18, 19, 20, 21, 63]:
        yield f"an array behind {numbers} numbers", holder(numbers, [listed(row)]), lambda _: asked_of_array(["p0"], row)
    for shape in [scalars, record, uneven]:
        for length in [63, 64, 65, 255, 256, 257, 319, 320, 321, 1000]:
            items = items_of(shape, length)
            text = f'{{"before":[1,[2]],"outer":{{"inner":{{"items":{listed(items)},"n":1}},"last":{{}}}},"behind":0}}'
            yield f"{length} items in three objects", text, lambda _, items=items: asked_of_array(
                ["outer", "inner", "items"], items
            )
        items = items_of(shape, 300)
        for between in [0, 253, 254, 298]:
            outer = [listed(items), *items_of(uneven, between), listed(items)]
            yield (
                f"an array that begins and ends with one of 300, {between} between",
                listed(outer),
                lambda _, items=items, outer=outer: (
                    *asked_of_array([], outer),
                    *asked_of_array([0], items),
                    *asked_of_array([len(outer) - 1], items),
                ),
            )


def objects():
    """Objects that are the whole text."""
    for keys in ["short", "eight", "middling"]:
        yield object_(keys, pairs, 1089)
        yield from (object_(keys, record, length) for length in [1023, 1024, 1089])
    yield from (object_(keys, record, 1089) for keys in ["long", "escaped"])
    # so many that they have twelve nodes on an average: tags are kept of the first 64, and of all
    yield object_("eight", seam(record, uneven, 17), 1089)
    yield object_("eight", seam(record, uneven, 1000), 1092)
    yield object_("eight", seam(record, uneven, 64), 257)
    # values of as many nodes as let tags be kept, of one fewer in all, and of fewer
    for shape, length in [(of_width(11), 1023), (of_width(11), 1024), (of_width(11, 0), 1024), (of_width(11, 700), 1025)]:
        yield object_("eight", shape, length)
    yield object_("eight", of_width(10), 1025)
    yield from (object_(keys, of_width(11), 1089) for keys in ["longer", "ending", "fours"])
    # as many changes of width as let tags go on, one fewer and one more, in the first 64 members and in the next
    yield from (object_("fours", changing(0, changes), 1024) for changes in [23, 24, 25])
    for begin, changes in [(64, 31), (64, 32), (64, 33), (0, 2000)]:
        yield object_("eight", changing(begin, changes), 1024)
    # members that are searched in runs of values of one width, until these change too often
    for length in [63, 64, 65, 255]:
        for shape in [scalars, of_width(3), of_width(3, 20), record]:
            yield object_("middling", shape, length)
        for begin, changes in [(31, 1), (0, 4), (0, 5), (0, 6)]:
            yield object_("short", changing(begin, changes), length)
        for shape in [seam(record, uneven, 50), seam(uneven, record, 10), uneven]:
            yield object_("eight", shape, length)


def repeats():
    """Objects in which keys come again."""
    for length in [63, 64, 65, 255]:
        halves, forties = [i // 2 for i in range(length)], [i % 40 for i in range(length)]
        yield object_("short", of_width(3), length, numbers=halves)
        yield object_("short", of_width(3), length, numbers=forties)
        yield object_("short", changing(31, 1), length, numbers=forties)
        yield object_("short", uneven, length, numbers=[0 if i == 62 else i for i in range(length)])
    yield object_("eight", record, 1025, numbers=[i // 2 for i in range(1025)])
    yield object_("eight", record, 257, numbers=[i % 64 for i in range(257)])
    yield object_("long", uneven, 256, numbers=[i % 65 for i in range(256)])
    # one key twice: in one block of 64, at its ends, and in two of them
    for first, second in [
        (0, 1),
        (0, 63),
        (10, 20),
        (63, 64),
        (64, 127),
        (0, 1088),
        (10, 1000),
        (128, 192),
        (255, 256),
        (1087, 1088),
    ]:
        for keys in ["middling", "long"]:
            yield object_(keys, record, 1089, numbers=[first if i == second else i for i in range(1089)])


def in_holders():
    """Large objects in others."""
    large = [members_of("fours", of_width(11), 1024, begin=begin) for begin in [0, 5000]]
    texts = [spelled(members) for members in large]

    def asked(path, places, last):
        for place in places:
            yield from asked_of_object([*path, f"p{place}"], large[place % 2], last)

    # they are looked for in objects of up to 64 members: not in the first and the last one here, but in the one between
    few, many = (holder(numbers, [texts[0], texts[1], texts[0]]) for numbers in [61, 62])
    yield (
        "large objects in three of some 64 members",
        spelled([("before", many), ("between", few), ("behind", many)]),
        lambda last: (row for key in ["before", "between", "behind"] for row in asked([key], range(3), last)),
    )
    # tags are kept of 64 objects: of all in the first one, and of 31 in the second
    inner = holder(0, [texts[i % 2] for i in range(33)])
    yield (
        "more large objects than tags are kept of",
        spelled([("first", inner), ("second", inner)]),
        lambda last: (*asked(["first"], [0, 1, 32], last), *asked(["second"], [29, 30, 31, 32], last)),
    )
    # one node of 32 is looked at: each of three objects of 64 pairs has 130, so that with 7 numbers before it the large object is
    # the last one, and with 8 it is behind
    small = members_of("eight", pairs, 64)
    for numbers in [0, 7, 8, 60]:
        yield (
            f"a large object behind {numbers} numbers and three small objects",
            holder(numbers, [*3 * [spelled(small)], texts[0]]),
            lambda last: (*asked_of_object(["p2"], small, last), *asked_of_object(["p3"], large[0], last)),
        )


def session(text, asked):
    """The input, what is answered, and how many look-ups that has."""
    rows = list(asked)
    lines = "".join(f"{json.dumps(command, ensure_ascii=False)}\n" for command, _ in rows)
    return f"{text}\n---\n{lines}", "".join(f"{reply}\n" for _, reply in rows), len(rows)


def main():
    passed = failed = lookups = 0
    kinds = [(alone, ["lazy"]), (in_objects, ["lazy"])] + [(kind, ["lazy", "lazy last"]) for kind in [objects, repeats, in_holders]]
    for kind, ways in kinds:
        for name, text, asked in kind():
            for words in ways:
                given, want, count = session(text, asked(words == "lazy last"))
                lookups += count
                if answered(words, given) == (0, want, ""):
                    passed += 1
                else:
                    failed += 1
                    print(f"{kind.__name__}: {name}, {words}: answered otherwise: {text[:200]}")
    print(f"{lookups} look-ups")
    print(f"{passed} passed, {failed} failed")
    return 1 if failed else 0


if __name__ == "__main__":
    sys.exit(main())
