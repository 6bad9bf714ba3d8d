#!/usr/bin/env python3
"""Gives the program patch_lines random documents, patches and merge patches, and compares what it answers.

Usage: tools/patches.py PROGRAM [--cases N] [--seed N]. What is wanted is made here from the texts of
RFC 6902, RFC 7396 and RFC 6901, on Python's own values. A patch that fails has to name the operation
and the reason, and to leave the document as it was; a difference, and a merge patch that leads from one document
to another, has to do so by the patches and merges of this file, and by the program's own. That there is no such
merge patch has to be told where none can exist, and there alone. Half of the cases are patches, the others merges,
differences and such merge patches; every second thousand is of borrowed documents. The last line is
'N passed, M failed'.
"""
import argparse
import copy
import json
import multiprocessing
import random
import re
import subprocess
import sys
from pathlib import Path

INDEX = re.compile(r"0|[1-9][0-9]*")
KEYS = ["a", "b", "c", "", "0", "1", "-", "01", "m~n", "a/b", "~1", "é", "𝄞", 'k"l', " "]
REASONS = {
    "missing": "nothing stands there",
    "no place": "no such place in the array",
    "whole": "the whole document cannot be removed",
    "into itself": "a value cannot be moved into itself",
    "differs": "the value differs",
}


class Fault(Exception):
    """Why an operation has no result."""


def tokens(text):
    """The tokens of a pointer (RFC 6901, sections 3 and 4)."""
    return [part.replace("~1", "/").replace("~0", "~") for part in text.split("/")[1:]]


def place(token):
    return int(token) if INDEX.fullmatch(token) and int(token) < 2**64 else None


def step(value, token):
    if isinstance(value, dict) and token in value:
        return value[token]
    if isinstance(value, list):
        at = place(token)
        if at is not None and at < len(value):
            return value[at]
    raise Fault("missing")


def find(value, path):
    for token in path:
        value = step(value, token)
    return value


def same(one, other):
    """RFC 6902, section 4.6. A truth value is no number."""
    if isinstance(one, dict) and isinstance(other, dict):
        return one.keys() == other.keys() and all(same(one[key], other[key]) for key in one)
    if isinstance(one, list) and isinstance(other, list):
        return len(one) == len(other) and all(map(same, one, other))
    return type(one) is type(other) and one == other


def add(value, path, part):
    if not path:
        return part
    holder, last = find(value, path[:-1]), path[-1]
    if isinstance(holder, dict):
        holder[last] = part
    elif isinstance(holder, list):
        at = len(holder) if last == "-" else place(last)
        if at is None or at > len(holder):
            raise Fault("no place")
        holder.insert(at, part)
    else:
        raise Fault("missing")
    return value


def remove(value, path):
    if not path:
        raise Fault("whole")
    holder, last = find(value, path[:-1]), path[-1]
    step(holder, last)
    del holder[last if isinstance(holder, dict) else int(last)]
    return value


def replace(value, path, part):
    if not path:
        return part
    holder, last = find(value, path[:-1]), path[-1]
    step(holder, last)
    holder[last if isinstance(holder, dict) else int(last)] = part
    return value


def move(value, source, path):
    """Onto itself it stays; the text of the RFC would put a member last, which has no order there."""
    part = find(value, source)
    if source == path:
        return value
    if path[: len(source)] == source:
        raise Fault("into itself")
    return add(remove(value, source), path, part)


def done(value, operation):
    name, path = operation["op"], tokens(operation["path"])
    if name == "add":
        return add(value, path, copy.deepcopy(operation["value"]))
    if name == "remove":
        return remove(value, path)
    if name == "replace":
        return replace(value, path, copy.deepcopy(operation["value"]))
    if name == "copy":
        return add(value, path, copy.deepcopy(find(value, tokens(operation["from"]))))
    if name == "move":
        return move(value, tokens(operation["from"]), path)
    if not same(find(value, path), operation["value"]):
        raise Fault("differs")
    return value


def patched(value, patch):
    """The document after the patch, or the number of the operation and the reason."""
    value = copy.deepcopy(value)
    for number, operation in enumerate(patch):
        try:
            value = done(value, operation)
        except Fault as fault:
            return None, f"operation {number}: {REASONS[str(fault)]}"
    return value, None


def merged(target, patch):
    """RFC 7396, section 2, line by line."""
    if not isinstance(patch, dict):
        return copy.deepcopy(patch)
    target = dict(target) if isinstance(target, dict) else {}
    for name, value in patch.items():
        if value is None:
            target.pop(name, None)
        else:
            target[name] = merged(target.get(name), value)
    return target


def can_merge_to(target, wanted):
    """Whether any merge patch makes the one of the other: a merge puts no null into an object, and can
    only leave one that is there."""
    if not isinstance(wanted, dict):
        return True
    target = target if isinstance(target, dict) else {}
    for name, part in wanted.items():
        if part is None and not (name in target and target[name] is None):
            return False
        if not can_merge_to(target.get(name), part):
            return False
    return True


def is_needed(target, patch):
    """Whether each member of a merge patch, in objects within objects, makes a difference."""
    if not isinstance(patch, dict):
        return True
    target = target if isinstance(target, dict) else {}
    for name, part in patch.items():
        left = {key: other for key, other in patch.items() if key != name}
        if same(merged(target, left), merged(target, patch)) or not is_needed(target.get(name), part):
            return False
    return True


def scalar(rng):
    return rng.choice([None, True, False, 0, 1, -1, 2**63, 2**64 - 1, -(2**63), 2**127, -(2**127),
                       rng.randrange(10), "", "a", "0", "xyz", "é𝄞", '\n\x01"\\'])


def value(rng, depth):
    kind = rng.random()
    if depth == 0 or kind < 0.35:
        return scalar(rng)
    if kind < 0.65:
        return [value(rng, depth - 1) for _ in range(rng.randrange(4))]
    # now and then past 32 members, where a map has an index
    many = rng.random() > 0.97
    keys = KEYS + [f"key{n}" for n in range(40)] if many else KEYS
    count = rng.randrange(30, 40) if many else rng.randrange(5)
    return {key: value(rng, depth - 1) for key in rng.sample(keys, count)}


def changed(rng, old, depth):
    """Much of the document, with some parts made anew."""
    turn = rng.random()
    if turn < 0.15 or depth == 0:
        return value(rng, depth)
    if isinstance(old, dict):
        kept = {key: changed(rng, part, depth - 1) for key, part in old.items() if rng.random() > 0.1}
        return kept | ({rng.choice(KEYS): scalar(rng)} if turn > 0.8 else {})
    if isinstance(old, list):
        kept = [changed(rng, part, depth - 1) for part in old if rng.random() > 0.1]
        return kept[:1] + [scalar(rng)] + kept[1:] if turn > 0.8 else kept
    return old


def places(document, path=()):
    yield path
    parts = document.items() if isinstance(document, dict) else enumerate(document) if isinstance(document, list) else ()
    for token, part in parts:
        yield from places(part, path + (str(token),))


def pointer(rng, document, is_target):
    """Mostly a place of the document; of a target a new key or place too, and at times none."""
    path = list(rng.choice(list(places(document))))
    turn = rng.random()
    if is_target and turn < 0.6:
        holder = find(document, path)
        if isinstance(holder, dict):
            path.append(rng.choice(KEYS))
        elif isinstance(holder, list):
            path.append(rng.choice(["-", str(len(holder)), str(rng.randrange(len(holder) + 1))]))
    elif turn > 0.85:
        path.append(rng.choice(KEYS + ["2", "00", "+1", "1e0", "18446744073709551616", "99"]))
    return "".join("/" + token.replace("~", "~0").replace("/", "~1") for token in path)


def operation(rng, document):
    name = rng.choice(["add", "add", "remove", "replace", "move", "copy", "test", "test"])
    made = {"op": name}
    made["path"] = pointer(rng, document, name in ("add", "move", "copy"))
    if name in ("move", "copy"):
        made["from"] = pointer(rng, document, False)
    if name in ("add", "replace", "test"):
        made["value"] = value(rng, 2)
    if name == "test" and rng.random() < 0.8:
        try:
            made["value"] = copy.deepcopy(find(document, tokens(made["path"])))
        except Fault:
            pass
    return made


def patch_of(rng, document):
    """Operations, most of which have a result behind those before them."""
    made = []
    for _ in range(rng.choice([0, 1, 1, 2, 3, 5, 8])):
        one = operation(rng, document)
        after, fault = patched(document, [one])
        if fault and rng.random() < 0.6:
            continue
        made.append(one)
        document = document if fault else after
    return made


def text_of(document):
    return json.dumps(document, ensure_ascii=False, separators=(",", ":"))


def patch_case(rng):
    """A line of a patch, and a test of its answer."""
    document = value(rng, 4)
    patch = patch_of(rng, document)
    after, fault = patched(document, patch)
    wanted = f"!{fault}\t{text_of(document)}\t{text_of(patch)}" if fault else text_of(after)
    return ["patch", document, patch], lambda answer: answer == wanted


def merge_case(rng):
    document = value(rng, 4)
    patch = changed(rng, document, 4) if rng.random() < 0.5 else value(rng, 4)
    wanted = text_of(merged(document, patch))
    return ["merge", document, patch], lambda answer: answer == wanted


def difference_case(rng):
    first = value(rng, 4)
    second = changed(rng, first, 4)

    def leads(answer):
        if answer.count("\t") != 1:
            return False
        patch, after = map(json.loads, answer.split("\t"))
        made, fault = patched(first, patch)
        is_right = fault is None and same(made, second) and text_of(made) == text_of(after)
        return is_right and bool(patch) != same(first, second)

    return ["diff", first, second], leads


def merge_difference_case(rng):
    is_object = rng.random() < 0.8
    first = {key: value(rng, 3) for key in rng.sample(KEYS, 4)} if is_object else value(rng, 4)
    second = changed(rng, first, 4)
    if rng.random() < 0.4:
        second = merged(first, second)

    def leads(answer):
        if not can_merge_to(first, second):
            return answer == "!no merge patch leads there"
        if answer.count("\t") != 1:
            return False
        patch, after = map(json.loads, answer.split("\t"))
        made = merged(first, patch)
        return same(made, second) and text_of(made) == text_of(after) and is_needed(first, patch)

    return ["merge_diff", first, second], leads


def run_cases(given):
    """The seeds of the cases whose answer is another, of a thousand."""
    program, seed, start, count = given
    form = "owned" if start // 1000 % 2 == 0 else "borrowed"
    seeds = [f"{seed} {number}" for number in range(start, start + count)]
    makes = (patch_case, merge_case, patch_case, difference_case, patch_case, merge_difference_case)
    cases = [makes[number % 6](random.Random(seed)) for number, seed in enumerate(seeds)]
    lines = "".join(text_of(line) + "\n" for line, _ in cases)
    ran = subprocess.run([program, form], input=lines.encode(), capture_output=True, timeout=60, check=False)
    answers = ran.stdout.decode().split("\n")[:-1]
    if (ran.returncode, len(answers)) != (0, len(cases)):
        return seeds
    return [seed for seed, (_, test), answer in zip(seeds, cases, answers) if not test(answer)]


def main():
    words = argparse.ArgumentParser()
    words.add_argument("program")
    words.add_argument("--cases", type=int, default=100_000)
    words.add_argument("--seed", type=int, default=1)
    words = words.parse_args()
    if not Path(words.program).is_file():
        print(f"failed: there is no program {words.program}\n0 passed, 1 failed")
        return 1
    program = Path(words.program).resolve()
    starts = range(0, words.cases, 1000)
    given = [(program, words.seed, start, min(1000, words.cases - start)) for start in starts]
    with multiprocessing.Pool() as pool:
        failed = [seed for seeds in pool.imap(run_cases, given) for seed in seeds]
    for seed in failed[:20]:
        print(f"failed: seed {seed}")
    print(f"{words.cases - len(failed)} passed, {len(failed)} failed")
    return bool(failed)


if __name__ == "__main__":
    sys.exit(main())
