#!/usr/bin/env python3
"""Gives the program sjval broken documents and broken command lines, and compares what it writes with tools/model.py.

Usage: tools/broken.py PROGRAM [--seconds N] [--cases N] [--seed N] [WORDS ..], each of WORDS the words of one form and way, as
'owned known' or 'lazy last'; none: all that the program knows. It stops after N seconds or N cases, whichever comes first; a
case is a document that is refused, or a command line, in one form and way; of a session that fails all cases count as failed. One
case more of each input is what Python's own json has of its document, beside tools/reading.py and the prints of tools/model.py. A
program that cannot be run, and a run of this tool's own that ends early, are failures. The same seed gives the same cases. The last
line is 'N passed, M failed'.
"""

import argparse
import itertools
import json
import multiprocessing
import queue
import random
import re
import subprocess
import sys
import time
import traceback

import model
import reading

WAYS = ['owned', 'owned known', 'borrowed', 'borrowed known', 'lazy',
        'owned last', 'owned known last', 'borrowed last', 'borrowed known last', 'lazy last']
KEYS = ['', 'a', 'b', 'k', 'Aa', 'BB', 'AaBB', 'BBAa', 'key', 'a/b', 'm~n', '0', '-', 'é', '\U0001f600', 'q"k', '\\', '\n', '\x00']
NUMBERS = sorted({sign * (2**bits + step) for bits in (0, 7, 8, 15, 16, 31, 32, 63, 64, 127, 128) for step in (-1, 0, 1)
                  for sign in (-1, 1)} | {0, 10**19, 10**20, 10**38})
CHARS = 'ab "\\/\b\f\n\r\t\x00\x1f\x7fé€\U0001f600\ud7ff\ue000\uffff'
# what a broken text gets between its bytes
BITS = [b'"', b'\\', b'\\u', b'\\ud83d', b'\\ude00', b'\\u12g4', b'\\x', b'[', b']', b'{', b'}', b',', b':', b'-', b'0', b'01',
        b'1', b'9' * 20, b'9' * 39, b'.', b'.5', b'e', b'E3', b'+', b'null', b'nul', b'true', b'fals', b'\x00', b'\x1f', b'\x7f',
        b'\xff', b'\xc3', b'\xe2\x82', b'\xed\xa0\x80', b'\xf0\x9f\x98', b'\xef\xbb\xbf', b' ', b'\t', b'\r', b'\x0b', b'---',
        b'[1,]', b'{"a"}', b'"\t"', b"'a'", b'/*', b'//', b'NaN', b'Infinity']

IN_STRINGS = [b'\\ud83d', b'\\ude00', b'\\ud83d\\ude00', b'\\ud83dx', b'\\ud83d\\n', b'\\ud83d\\u0041', b'\\ud83d\\u12g4', b'\\u', b'\\u00e',
              b'\\q', b'\\', b'\t', b'\x00', b'\xff', b'\xed\xa0\xbd']
IN_POINTERS = ['~', '~0', '~1', '~2', '~01', '~~', '/', '//', '0', '1', '-', '+', ' ', '\u0663', '\\']
REFUSED = ('refused',)
IN_NUMBERS = [b'.', b'.0', b'e1', b'E', b'-', b'+', b'0' * 40, b'9' * 20, b'x', b' 1', b'\xd9\xa3']


class Writer:
    """Makes trees, spells them in many ways, and breaks what it spelled."""

    def __init__(self, seed):
        self.random = random.Random(seed)

    def one_in(self, many):
        return self.random.randrange(many) == 0

    def text(self):
        if self.one_in(2):
            return self.random.choice(KEYS)
        size = self.random.choice((1, 3, 8, 15, 16, 31, 33, 70))
        return ''.join(self.random.choice(CHARS) for _ in range(size))

    def tree(self, depth):
        choice = self.random.randrange(8 if depth else 5)
        if choice < 2:
            return self.text()
        if choice == 2:
            number = self.random.choice(NUMBERS) if self.one_in(2) else self.random.randrange(-300, 300)
            return ('int', number, None) if -2**127 <= number < 2**128 else None
        if choice < 5:
            return self.random.choice((None, True, False, ('list', []), ('obj', [])))
        size = 40 if self.one_in(60) else self.random.randrange(5)
        if choice == 5:
            return ('list', [self.tree(depth - 1) for _ in range(size)])
        return ('obj', [(self.random.choice(KEYS) if size < 40 else f'k{at:02}', self.tree(depth - 1)) for at in range(size)])

    def spelled_text(self, text):
        out = ['"']
        for char in text:
            code = ord(char)
            if self.one_in(12) and char in '"\\/\b\f\n\r\t':
                out.append('\\' + dict(zip('"\\/\b\f\n\r\t', '"\\/bfnrt'))[char])
            elif code < 0x20 or char in '"\\' or self.one_in(12):
                units = [code] if code < 0x10000 else [0xD800 + (code - 0x10000 >> 10), 0xDC00 + (code - 0x10000 & 0x3FF)]
                form = self.random.choice(('\\u%04x', '\\u%04X'))
                out.extend(form % unit for unit in units)
            else:
                out.append(char)
        return ''.join(out) + '"'

    def blank(self):
        return self.random.choice(('', '', '', '', ' ', '\t', '\r\n', '  ')) if self.spaced else ''

    def spelled(self, tree):
        if isinstance(tree, str):
            spelled = self.spelled_text(tree)
        elif model.is_list(tree):
            spelled = '[' + (','.join(map(self.spelled, tree[1])) or self.blank()) + ']'
        elif model.is_obj(tree):
            members = (self.blank() + self.spelled_text(key) + self.blank() + ':' + self.spelled(value) for key, value in tree[1])
            spelled = '{' + (','.join(members) or self.blank()) + '}'
        else:
            spelled = '-0' if tree == ('int', 0, None) and self.one_in(2) else model.scalar(tree)
        return self.blank() + spelled + self.blank()

    def broken(self, given):
        """The bytes with some of them gone, changed, doubled or put between."""
        for _ in range(self.random.choice((0, 1, 1, 1, 2, 3))):
            at, end = sorted(self.random.randrange(len(given) + 1) for _ in range(2))
            end = min(end, at + 6)
            turn = self.random.randrange(9)
            if turn == 0:
                given = given[:at]
            elif turn == 1:
                given = given[:at] + given[end:]
            elif turn == 2:
                given = given[:end] + given[at:]
            elif turn == 3:
                given = given[:at] + bytes([self.random.randrange(256)]) + given[at + 1:]
            elif turn < 6:
                given = given[:at] + self.random.choice(BITS) + given[at + (turn == 4):]
            else:
                # behind a quote what only a string may hold, behind a digit what only a number may
                marks, bits = (b'"', IN_STRINGS) if turn == 6 else (b'0123456789', IN_NUMBERS)
                places = [place for place, byte in enumerate(given, 1) if byte in marks]
                at = self.random.choice(places) if places else at
                given = given[:at] + self.random.choice(bits) + given[at:]
        return given

    def deep(self):
        """A text about as deep as is read."""
        depth = self.random.choice((1023, 1024, 1025, 1026))
        left, right = self.random.choice((('[', ']'), ('{"a":', '}')))
        closed = self.random.choice((depth, depth, depth - 1, 0))
        return (left * depth + '1' + right * closed).encode()

    def document(self):
        self.spaced = self.one_in(2)
        if self.one_in(300):
            return self.deep()
        given = self.spelled(self.tree(4)).encode()
        return self.broken(given) if self.one_in(2) else given

    def path(self, tree):
        """A path into the tree, or beside it."""
        steps = []
        while (model.is_list(tree) or model.is_obj(tree)) and tree[1] and not self.one_in(3):
            at = self.random.randrange(len(tree[1]))
            steps.append(tree[1][at][0] if model.is_obj(tree) else ('int', at, None))
            tree = model.part(tree, at)
        if self.one_in(5):
            steps.append(self.random.choice((self.text(), ('int', self.random.randrange(4), None), ('int', 2**64, None), None)))
        return ('list', steps)

    def pointer(self, steps):
        """The steps as a pointer, which may be broken."""
        tokens = [str(step[1]) if model.is_int(step) else step or '' for step in steps]
        text = ''.join('/' + token.replace('~', '~0').replace('/', '~1') for token in tokens)
        for _ in range(self.random.choice((0, 0, 1, 2))):
            at = self.random.randrange(len(text) + 1)
            text = text[:at] + self.random.choice(IN_POINTERS) + text[at + self.random.randrange(2):]
        return text

    def line(self, tree):
        name = self.random.choice([*model.READS, *model.WRITES, 'nonsense'])
        rest = {'has': lambda: [self.text()], 'remove': lambda: [self.text()], 'push': lambda: [self.tree(2)],
                'fits': lambda: [self.random.choice([*model.WIDTHS, 'i7', ''])],
                'put': lambda: [self.tree(2)], 'insert': lambda: [self.text(), self.tree(2)]}.get(name, list)()
        if self.one_in(20):
            rest = [self.tree(1) for _ in range(self.random.randrange(4))]
        path = self.path(tree)
        if name == 'put' and not path[1] and not self.one_in(8):
            name, rest = 'encode', []
        path = self.pointer(path[1]) if self.one_in(3) else path
        self.spaced = self.one_in(4)
        given = self.spelled(('list', [name, path, *rest])).replace('\n', ' ').encode()
        given = self.broken(given) if self.one_in(3) else given
        return given.replace(b'\n', b' ') + self.random.choice((b'', b'', b'\r'))

    def input(self):
        """An input of one document and its lines."""
        document = self.document()
        try:
            tree = reading.read(document)
        except reading.Unread:
            tree = None
        lines = [self.line(tree) for _ in range(self.random.choice((0, 5, 20, 60)))]
        return b'\n'.join([document, self.random.choice((b'---', b'---\r')), *lines])


def no_number(text):
    raise ValueError(text)


def loads(text):
    """What Python's json reads: a tree as tools/model.py has it, but for its carriers; REFUSED where it refuses the text."""
    try:
        return json.loads(text, object_pairs_hook=lambda pairs: ('obj', pairs), parse_constant=no_number)
    except ValueError:
        return REFUSED


def pythons(tree):
    """The tree as `loads` has it."""
    if model.is_list(tree):
        return [pythons(item) for item in tree[1]]
    if model.is_obj(tree):
        return 'obj', [(key, pythons(value)) for key, value in tree[1]]
    return tree[1] if model.is_int(tree) else tree


def dicts(tree):
    """The same with a dict for each object."""
    if isinstance(tree, tuple):
        return {key: dicts(value) for key, value in tree[1]}
    return [dicts(item) for item in tree] if isinstance(tree, list) else tree


def judged(given):
    """What tools/reading.py and tools/model.py have of an input's document otherwise than Python's json; None where nothing."""
    document = model.cut(given)[0]
    try:
        theirs = loads(document.decode())
    except UnicodeDecodeError:
        theirs = REFUSED
    try:
        tree = reading.read(document)
    except reading.Unread as refused:
        # json takes fractions, any number and any escape of four digits
        return f'{refused}, and not {theirs!r}' if str(refused) in ('Syntax', 'InvalidUtf8') and theirs is not REFUSED else None
    if repr(theirs) != repr(pythons(tree)):
        return f'{tree!r}, and not {theirs!r}'
    kept = model.keep(tree)
    for print_of, format in ((model.compact, {'separators': (',', ':')}), (model.pretty, {'indent': 2})):
        want = json.dumps(dicts(pythons(kept)), ensure_ascii=False, **format)
        if print_of(kept) != want or repr(loads(print_of(tree))) != repr(theirs):
            return f'{print_of(kept)!r}, and not {want!r}'
    return None


def wanted(given, words):
    """What the program has to end with on an input: status, output, what it says, and the number of cases."""
    choice = model.LAST if 'last' in words else model.FIRST
    try:
        written = model.session(given, 'lazy' in words, choice)
    except reading.Unread as refused:
        return (3, b'', f'text refused: {refused}\n'.encode()), 1
    return (0, written, b''), written.count(b'\n')


def without_place(told):
    """The first line of a refusal, where the second has a place; tools/faults.py compares places."""
    name, feed, place = told.partition(b'\n')
    return name + feed if re.fullmatch(rb'line \d+, column \d+: [a-zA-Z0-9 -]+\n', place) else b'no place behind ' + told


def tried(program, ways, seed):
    """Runs one input in each way; how many cases passed and failed, and of each failure the words and what came."""
    sys.setrecursionlimit(20000)
    given = Writer(seed).input()
    otherwise = judged(given)
    passed, failed, failures = (0, 1, [(seed, 'and json', given, 'one reading', otherwise)]) if otherwise else (1, 0, [])
    for words in ways:
        want, counted = wanted(given, words.split())
        try:
            ran = subprocess.run([program, *words.split()], input=given, capture_output=True, timeout=60)
            got = ran.returncode, ran.stdout, without_place(ran.stderr) if ran.returncode == 3 else ran.stderr
        except subprocess.TimeoutExpired:
            got = 'no end within a minute', b'', b''
        if got == want:
            passed += counted
        else:
            failed += max(counted, 1)
            failures.append((seed, words, given, want, got))
    return passed, failed, failures


def worker(program, ways, until, seeds, results):
    """Puts what came of each seed, and at the end None, or why it ended early."""
    ended = None
    try:
        for seed in seeds:
            if time.monotonic() > until:
                break
            results.put(tried(program, ways, seed))
    except BaseException:
        ended = traceback.format_exc()
    results.put(ended)


def gathered(workers, results, most):
    """The cases that passed and that failed, until the workers end or there are enough; a worker that ends early is a failure."""
    passed = failed = 0
    ended = 0
    while ended < len(workers) and passed + failed < most:
        try:
            result = results.get(timeout=5)
        except queue.Empty:
            # a worker that was killed puts nothing
            if not any(it.is_alive() for it in workers) and results.empty():
                print(f'failed: {len(workers) - ended} workers ended without a word')
                return passed, failed + len(workers) - ended
            continue
        if result is None or isinstance(result, str):
            ended += 1
            failed += result is not None
            print(end=f'failed: a worker ended early\n{result}' if result else '')
            continue
        good, bad, failures = result
        passed, failed = passed + good, failed + bad
        for seed, words, given, want, got in failures[:1]:
            print(f'failed: sjval {words}, seed {seed!r}\n  input {given[:2000]!r}\n  want {want!r}\n  got {got!r}'[:6000])
    return passed, failed


def main():
    parser = argparse.ArgumentParser()
    parser.add_argument('program')
    parser.add_argument('ways', nargs='*', default=WAYS)
    parser.add_argument('--seconds', type=float, default=60)
    parser.add_argument('--cases', type=int, default=1_000_000)
    parser.add_argument('--seed', type=int, default=1)
    options = parser.parse_args()
    count = multiprocessing.cpu_count()
    until = time.monotonic() + options.seconds
    results = multiprocessing.Queue()
    seeds = [(f'{options.seed} {number}' for number in itertools.count(at, count)) for at in range(count)]
    workers = [multiprocessing.Process(target=worker, args=(options.program, options.ways, until, it, results), daemon=True) for it in seeds]
    for it in workers:
        it.start()
    passed, failed = gathered(workers, results, options.cases)
    print(f'{passed} passed, {failed} failed')
    return 1 if failed or not passed else 0


if __name__ == '__main__':
    sys.exit(main())
