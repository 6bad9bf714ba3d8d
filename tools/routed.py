#!/usr/bin/env python3
"""Compares what sjroute writes with what a model works out on plain trees, for rules and lines of a random source.

Usage: tools/routed.py SJROUTE [--seconds N] [--seed S]. The model reads lines and rules by tools/reading.py and tools/model.py, and
merges as RFC 7396 says; it shares nothing with the program. Tells each run that differs; the last line has the numbers.
"""
import argparse
import random
import subprocess
import sys
import tempfile
import time
from pathlib import Path

import faults
import model
import reading

KINDS = {"Null": "null", "Bool": "bool", "String": "string", "Array": "array", "Object": "object"}
KEYS = ["a", "b", "x/y", "t~", "é", "0"]
SCALARS = ["null", "true", "false", "0", "-1", "7", "18446744073709551616", '"a"', '"A\\u00e9\\n"', '"news"']


def found(tree, tokens):
    """What the tokens find, by the first member of each key; () where they find nothing."""
    for token in tokens:
        if model.is_obj(tree):
            values = [value for key, value in tree[1] if key == token]
        elif model.is_list(tree) and token.isascii() and token.isdigit() and (token == "0" or token[0] != "0"):
            values = tree[1][int(token) :][:1]
        else:
            values = []
        if not values:
            return ()
        tree = values[0]
    return tree


def same(tree):
    """The tree so that the same documents are equal: kept, without carriers, members in no order."""
    if model.is_int(tree):
        return ("int", tree[1])
    if model.is_list(tree):
        return ("list", [same(item) for item in tree[1]])
    if model.is_obj(tree):
        return ("obj", {key: same(value) for key, value in model.keep(tree)[1]})
    return (type(tree).__name__, tree)


def merged(target, patch):
    """RFC 7396, section 2."""
    if not model.is_obj(patch):
        return patch
    members = dict(target[1]) if model.is_obj(target) else {}
    for key, value in patch[1]:
        if value is None:
            members.pop(key, None)
        else:
            members[key] = merged(members.get(key), value)
    return ("obj", list(members.items()))


def member(tree, key):
    return found(tree, [key])


def tokens(rule):
    if member(rule, "key") != ():
        return [member(rule, "key")]
    text = member(rule, "pointer")
    return [part.replace("~1", "/").replace("~0", "~") for part in text.split("/")[1:]] if text != () else []


def selects(rule, tree):
    there = found(tree, tokens(rule))
    if there == ():
        return False
    if member(rule, "kind") != ():
        return KINDS.get(model.kind(there), "number") == member(rule, "kind")
    return member(rule, "value") == () or same(there) == same(member(rule, "value"))


def wanted(rules, given):
    """The bytes of each output, by its name, and how many lines were not read."""
    rules = model.keep(reading.read(rules))[1]
    out, unread = {member(rule, "output"): b"" for rule in rules}, 0
    for line in given.split(b"\n"):
        line = line[:-1] if line.endswith(b"\r") else line
        if not line:
            continue
        try:
            tree = reading.read(line)
        except reading.Unread:
            unread += 1
            taking = [rule for rule in rules if member(rule, "takes") == "unread"]
        else:
            taking = [rule for rule in rules if member(rule, "takes") == () and selects(rule, tree)]
            taking = taking or [rule for rule in rules if member(rule, "takes") == "unmet"]
        for rule in taking:
            patch = member(rule, "merge")
            text = line if patch == () else model.compact(merged(model.keep(tree), patch)).encode()
            out[member(rule, "output")] += text + b"\n"
    return out, unread


def value(source, depth):
    """The text of a value."""
    kind = source.randrange(4 if depth else 2)
    if kind == 2:
        return "[" + ",".join(value(source, depth - 1) for _ in range(source.randrange(3))) + "]"
    if kind == 3:
        members = [f'"{source.choice(KEYS)}" : {value(source, depth - 1)}' for _ in range(source.randrange(4))]
        return "{" + ",".join(members) + "}"
    return source.choice(SCALARS)


def rule(source, number):
    """The text of a route."""
    members = [f'"output":"o{number}"' if number else '"output":"-"']
    takes = source.randrange(8)
    if takes < 2:
        members.append('"takes":' + ('"unmet"', '"unread"')[takes])
    else:
        path = source.choice([None, None, "", "/a", "/a/b", "/x~1y", "/t~0/0", "/b/0"])
        if path is not None:
            members.append(f'"pointer":"{path}"')
        elif source.randrange(2):
            members.append(f'"key":"{source.choice(KEYS)}"')
        what = source.randrange(3)
        if what == 0:
            members.append('"kind":"' + source.choice(["null", "bool", "number", "string", "array", "object"]) + '"')
        elif what == 1:
            members.append('"value":' + value(source, 1))
    if takes != 1 and source.randrange(3) == 0:
        members.append('"merge":' + value(source, 2))
    source.shuffle(members)
    return "{" + ",".join(members) + "}"


def line(source):
    if source.randrange(12) == 0:
        return faults.changed(source)
    text = source.choice(["", "", "", " ", "\t"]) + value(source, 3) + source.choice(["", "", " "])
    return source.choice([text, text, text, ""]).encode() + source.choice([b"", b"", b"\r"])


def main():
    words = argparse.ArgumentParser()
    words.add_argument("program")
    words.add_argument("--seconds", type=float, default=5)
    words.add_argument("--seed", type=int, default=1)
    words = words.parse_args()
    source = random.Random(words.seed)
    program = Path(words.program).resolve()
    end, runs, wrong = time.monotonic() + words.seconds, 0, 0
    while time.monotonic() < end:
        rules = "[" + ",\n".join(rule(source, number) for number in range(source.randrange(5))) + "]"
        given = b"\n".join(line(source) for _ in range(source.randrange(60))) + source.choice([b"", b"\n"])
        want, unread = wanted(rules, given)
        with tempfile.TemporaryDirectory() as folder:
            Path(folder, "rules.json").write_text(rules)
            run = subprocess.run([program, "rules.json"], cwd=folder, input=given, capture_output=True)
            got = {name: run.stdout if name == "-" else Path(folder, name).read_bytes() for name in want}
        runs += 1
        if got != want or run.returncode != (1 if unread else 0) or (run.stdout and "-" not in want):
            wrong += 1
            print(f"status {run.returncode}: {rules}\n{given!r}\nwrote {got}\nand not {want}")
    print(f"seed {words.seed}: {runs} runs, {wrong} differ")
    return 1 if wrong or not runs else 0


if __name__ == "__main__":
    sys.exit(main())
