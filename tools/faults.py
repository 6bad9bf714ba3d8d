#!/usr/bin/env python3
"""Compares where sjroute tells that lines are not read with a model that knows no machine.

Usage: tools/faults.py SJROUTE [--seconds N] [--seed S]. The place is behind the longest beginning of the line that some
readable text has too: the model puts endings behind a beginning, closes what is open, and reads that by tools/reading.py.
Lines are made of texts that are changed, cut and spliced. Tells each line where the two differ; the last line has the numbers.
"""
import argparse
import random
import re
import subprocess
import sys
import tempfile
import time
from pathlib import Path

import reading

SEEDS = [
    b'{"a":[1,-2,null,true,false,"x\\n\\u00e9\\ud83d\\ude00"],"b":{"c":"\xc3\xa9\xe2\x82\xac\xf0\x9f\x98\x80","d":[]}}',
    b"[340282366920938463463374607431768211455,-170141183460469231731687303715884105728,0,-0]",
    b' [ { } , [ ] , "" ] ',
    b'"\\\\\\"\\/\\b\\ud800\\udc00"',
    b'{"a" : 1 , "b":2}',
    b"12",
    b"tru",
    b"nul",
    b"-",
]
# up to 1,024 arrays and objects may be open
DEEP = {b"[" * 1024: 1024, b"[" * 1025: 1024, b'{"":' * 1024 + b"[": 4096, b"[" * 1024 + b"]" * 1025: 2048}
BYTES = b'[]{}",:\\ud8c0e.-+1tfnrl \r\x00\x80\xc3\xed\xa0\xff'
DIGITS = [b"n", b"u0000", b"0000", b"000", b"00", b"0", b"800", b"d800", b"c00", b"dc00", b"udc00"]
DIGITS += [b"\\udc00", b"0\\udc00", b"00\\udc00", b"000\\udc00"]
CHARACTERS = [b"\x80", b"\x80\x80", b"\x80\x80\x80", b"\xa0\x80", b"\x90\x80\x80", b"\xbf"]
ENDINGS = {b"", b"0", b'"', b'""', b":0", b'":0', b'"":0'}
ENDINGS |= {word[at:] for word in (b"null", b"true", b"false") for at in range(1, len(word))}
ENDINGS |= {inside + quote for inside in DIGITS + CHARACTERS for quote in (b'"', b'":0')}
ENDINGS = sorted(ENDINGS, key=lambda ending: (len(ending), ending))


def is_readable(text):
    try:
        reading.read(text)
    except reading.Unread:
        return False
    return True


def closing(text):
    """The brackets that close what is open."""
    opened, is_inside, at = [], False, 0
    while at < len(text):
        byte = text[at : at + 1]
        if is_inside and byte == b"\\":
            at += 1
        elif byte == b'"':
            is_inside = not is_inside
        elif not is_inside and byte in (b"[", b"{"):
            opened.append(byte)
        elif not is_inside and byte in (b"]", b"}") and opened:
            opened.pop()
        at += 1
    return b"".join(b"]" if byte == b"[" else b"}" for byte in reversed(opened))


def is_begin(text):
    close = closing(text)
    return any(is_readable(text + ending + close) for ending in ENDINGS)


def place(text):
    """How many bytes stand in front of the fault; None where the text is readable."""
    if is_readable(text):
        return None
    at = 0
    while at < len(text) and is_begin(text[: at + 1]):
        at += 1
    return at


def changed(source):
    """One of the seeds, changed up to two times, as the text of a line."""
    text = bytearray(source.choice(SEEDS))
    for _ in range(source.randrange(3)):
        at = source.randrange(len(text) + 1)
        kind = source.randrange(4)
        if kind == 0:
            text[at:at] = bytes([source.choice(BYTES)])
        elif kind == 3:
            text = text[:at]
        elif at < len(text):
            text[at : at + 1] = b"" if kind == 1 else bytes([source.choice(BYTES)])
    return bytes(text).rstrip(b"\r") or b" "


def main():
    words = argparse.ArgumentParser()
    words.add_argument("program")
    words.add_argument("--seconds", type=float, default=5)
    words.add_argument("--seed", type=int, default=1)
    words = words.parse_args()
    source = random.Random(words.seed)
    end = time.monotonic() + words.seconds
    wanted = dict(DEEP)
    while time.monotonic() < end:
        text = changed(source)
        wanted.setdefault(text, place(text))
    with tempfile.TemporaryDirectory() as folder:
        rules = Path(folder, "rules.json")
        rules.write_text("[]")
        lines = b"".join(text + b"\n" for text in wanted)
        run = subprocess.run([words.program, rules], input=lines, capture_output=True)
    told = {int(line): int(column) - 1 for line, column in re.findall(rb"^line (\d+), column (\d+): ", run.stderr, re.M)}
    wrong = 0
    for number, (text, at) in enumerate(wanted.items(), 1):
        if told.get(number) != at:
            print(f"{text!r}: told {told.get(number)}, and not {at}")
            wrong += 1
    print(f"seed {words.seed}: {len(wanted)} lines, {sum(at is not None for at in wanted.values())} not readable, {wrong} differ")
    return 1 if wrong or run.returncode not in (0, 1) else 0


if __name__ == "__main__":
    sys.exit(main())
