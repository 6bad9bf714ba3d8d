#!/usr/bin/env python3
"""Runs two programs on documents that edits make deep, on a stack of 512 KB, and compares each reply with a model that has no recursion.

Usage: tools/deep.py SJVAL DEEP [LEVELS [MADE]]

SJVAL answers sessions whose commands make LEVELS levels (50,000 else), in each form, by keys and by known keys, with paths as arrays and
as pointers. DEEP makes MADE levels by edits (1,000,000 else), and answers commands there in each form and way; it prints copies of such
documents, and what they are turned into, and asks whether they are within their depth. Each run has to end with status 0 and what the
model says. The last line is 'N passed, M failed'.
"""

import json
import os
import subprocess
import sys
from concurrent.futures import ThreadPoolExecutor

STACK = 512 * 1024

# How many levels a line's own value has. A line may be 1,024 deep.
CHUNK = 1_000

# Past so many levels all are arrays: the texts of the paths grow with the square of the levels.
MIXED = 200_000

# The part whose pretty print is asked for: its spaces grow with the square of its depth.
PART = 500

WAYS = [['owned'], ['owned', 'known'], ['borrowed'], ['borrowed', 'known'], ['lazy']]


# ---- a tree is None, a bool, an int, a str, a list or a dict


text = json.JSONEncoder(ensure_ascii=False, separators=(',', ':')).encode


def opened(tree):
    """The bracket before the parts of a tree, its parts with what stands before each, and the bracket behind; None of a scalar."""
    if isinstance(tree, list):
        return '[', [('', part) for part in tree], ']'
    if isinstance(tree, dict):
        return '{', [(text(key), part) for key, part in tree.items()], '}'
    return None


def printed(tree, is_pretty=False):
    """The compact print, or the pretty one, by a pile of what stands open."""
    out, pile, level = [], [], 0

    def line():
        return '\n' + '  ' * level if is_pretty else ''

    colon = ': ' if is_pretty else ':'
    at = tree
    while True:
        level_of = opened(at)
        if level_of is None:
            out.append(text(at))
        elif not level_of[1]:
            out.append(level_of[0] + level_of[2])
        else:
            out.append(level_of[0])
            pile.append((iter(level_of[1]), level_of[2]))
            level += 1
            key, at = next(pile[-1][0])
            out.append(line() + (key + colon if key else ''))
            continue
        while pile:
            following = next(pile[-1][0], None)
            if following is not None:
                key, at = following
                out.append(',' + line() + (key + colon if key else ''))
                break
            level -= 1
            out.append(line() + pile.pop()[1])
        else:
            return ''.join(out)


KINDS = {type(None): 'Null', bool: 'Bool', int: 'I64', str: 'String', list: 'Array', dict: 'Object'}


def read_reply(tree, name, rest):
    if name == 'kind':
        return KINDS[type(tree)]
    if name == 'fits':
        return 'true' if type(tree) is int and 0 <= tree < 256 else 'false'
    if name == 'str':
        return text(tree) if isinstance(tree, str) else 'not a string'
    if name == 'len':
        return str(len(tree)) if isinstance(tree, (list, dict)) else 'no length'
    if name == 'keys':
        return text(list(tree)) if isinstance(tree, dict) else 'not an object'
    if name == 'has':
        return 'true' if isinstance(tree, dict) and rest[0] in tree else 'false'
    return printed(tree, name == 'encode_pp')


def write_reply(tree, name, rest):
    """The reply to a write at a tree other than `put`; the tree is written to."""
    if name in ('push', 'pop'):
        if not isinstance(tree, list):
            return 'not an array'
        if name == 'push':
            tree.append(rest[0])
            return 'ok'
        return printed(tree.pop()) if tree else 'none'
    if not isinstance(tree, dict):
        return 'not an object'
    old = printed(tree[rest[0]]) if rest[0] in tree else 'none'
    if name == 'insert':
        tree[rest[0]] = rest[1]
    else:
        tree.pop(rest[0], None)
    return old


class Model:
    """A document, the lines of a session and their replies. The way goes from the whole document to its innermost array: its steps, as they
    are written, and the tree at each depth."""

    def __init__(self, document, is_pointer):
        self.root = [document]
        self.is_pointer = is_pointer
        self.steps, self.written, self.trees = [], [], [document]
        self.lines = [printed(document), '---']
        self.replies = []

    def go(self, *steps):
        """Lengthens the way."""
        for step in steps:
            self.steps.append(step)
            self.written.append(f'/{step}' if self.is_pointer else text(step))
            self.trees.append(self.trees[-1][step])

    def depth(self):
        return len(self.steps)

    def path(self, depth, below):
        if self.is_pointer:
            return text(''.join(self.written[:depth]) + ''.join(f'/{step}' for step in below))
        return '[' + ','.join(self.written[:depth] + [text(step) for step in below]) + ']'

    def run(self, name, depth, below, *rest):
        """A command at so many steps of the way, and steps below."""
        written = [text(name), self.path(depth, below), *map(printed, rest)]
        self.lines.append('[' + ','.join(written) + ']')
        self.replies.append(self.reply(name, depth, below, rest))

    def reply(self, name, depth, below, rest):
        owner, last = (self.trees[depth - 1], self.steps[depth - 1]) if depth else (self.root, 0)
        for step in below:
            owner, last = owner[last], step
            if isinstance(owner, dict) and step not in owner or isinstance(owner, list) and step >= len(owner) or opened(owner) is None:
                return 'missing'
        if name == 'put':
            old = printed(owner[last])
            owner[last] = rest[0]
            return old
        if name in ('insert', 'remove', 'push', 'pop'):
            return write_reply(owner[last], name, rest)
        return read_reply(owner[last], name, rest)


def chunk(levels, is_mixed):
    """So many levels around an empty array, with the steps of the way to it: by turns objects and arrays with scalars beside the way, or
    arrays alone."""
    tree, steps = [], []
    for level in range(levels - 1):
        if not is_mixed:
            tree, step = [tree], 0
        elif level % 2:
            tree, step = [level, tree], 1
        else:
            tree, step = {'a': None, 'k': tree, 'z': 'é"'}, 'k'
        steps.append(step)
    return tree, steps[::-1]


AT_THE_ARRAY = [['kind'], ['fits', 'u8'], ['str'], ['len'], ['keys'], ['has', 'k'], ['encode'], ['encode_pp'], ['insert', 'k', 1],
                ['remove', 'k'], ['pop'], ['push', {'a': 7, 'b': ['x']}], ['push', 5], ['pop']]

AT_THE_OBJECT = [['keys'], ['has', 'b'], ['insert', 'c', [1, 2]], ['insert', 'a', 8], ['remove', 'b'], ['push', 1], ['put', {'n': -1}],
                 ['encode'], ['encode_pp']]

AT_THE_NUMBER = [['kind'], ['fits', 'u8'], ['str'], ['len'], ['put', 'text']]


def session(levels, is_pointer):
    """A document of at least so many levels that edits make, each command at its bottom, prints of it, and writes that let it go."""
    model = Model([], is_pointer)
    while model.depth() < levels:
        is_mixed = levels <= MIXED
        tree, steps = chunk(CHUNK, is_mixed)
        model.run('push', model.depth(), [], tree)
        model.go(0, *steps)
    at_the_bottom(model)
    bottom = model.depth()
    # A part goes, then all below the middle; the rest goes when something else is put.
    model.run(*(['remove', bottom - 1, [], 'k'] if levels <= MIXED else ['pop', bottom - 1, []]))
    model.run('put', bottom // 2, [], None)
    model.run('encode', 0, [])
    model.run('put', 0, [], {'new': [1]})
    model.run('encode', 0, [])
    return '\n'.join(model.lines) + '\n', ''.join(reply + '\n' for reply in model.replies)


def at_the_bottom(model):
    """Each command at the innermost array, at what was put into it, and at that; prints of a part and of all."""
    bottom = model.depth()
    for below, commands in ([], AT_THE_ARRAY), ([0], AT_THE_OBJECT), ([0, 'n'], AT_THE_NUMBER):
        for name, *rest in commands:
            model.run(name, bottom, below, *rest)
    model.run('str', bottom, [0, 'n'])
    model.run('kind', bottom, [0, 'n', 0])
    model.run('encode_pp', bottom - PART, [])
    model.run('encode', 0, [])


class Made(Model):
    """The same of a document of so many levels around an empty array, of which the innermost PART levels are the tree and the levels above
    stand as texts: the steps of the way to the tree, and what a print has before it and behind it."""

    def __init__(self, levels):
        tree, steps = chunk(PART + 1, True)
        super().__init__(tree, False)
        self.go(*steps)
        above = range(levels - 1, PART - 1, -1)
        self.above = ','.join('1' if level % 2 else '"k"' for level in above)
        self.before = ''.join(f'[{level},' if level % 2 else '{"a":null,"k":' for level in above)
        self.behind = ''.join(']' if level % 2 else ',"z":"é\\""}' for level in reversed(above))

    def path(self, depth, below):
        return '[' + ','.join(filter(None, [self.above, super().path(depth, below)[1:-1]])) + ']'

    def all(self):
        """The print of all."""
        return self.before + printed(self.trees[0]) + self.behind


def made(levels):
    """Command lines at a document of so many levels, and their replies: each command at its bottom, prints of it, and a write at the top that
    lets it go."""
    model = Made(levels)
    at_the_bottom(model)
    lines = [*model.lines[2:], '["encode",[]]', '["put",[],{"new":[1]}]', '["encode",[]]']
    replies = [*model.replies, model.all(), model.all(), '{"new":[1]}']
    return '\n'.join(lines) + '\n', '\n'.join(replies) + '\n'


def copied(levels):
    """What copies of a document of so many levels print."""
    return (Made(levels).all() + '\n') * 2 + 'within\n'


def passes(words, given, wanted):
    """Whether the program, given that, ends with status 0 and writes what is wanted; else it is told."""
    limited = ['bash', '-c', f'ulimit -s {STACK // 1024} && exec "$@"', 'bash', *words]
    ran = subprocess.run(limited, input=given, stdout=subprocess.PIPE, stderr=subprocess.PIPE, check=False)
    if ran.returncode == 0 and ran.stdout == wanted and not ran.stderr:
        return True
    lines, want = ran.stdout.split(b'\n'), wanted.split(b'\n')
    at = next((at for at, (one, other) in enumerate(zip(lines, want)) if one != other), min(len(lines), len(want)))
    print(f'failed: {" ".join(words)}: status {ran.returncode}, {len(lines)} lines of {len(want)}, the first other one is {at}: '
          f'{lines[at][:100] if at < len(lines) else b""} {ran.stderr[:300]}')
    return False


def runs(sjval, deep, levels, made_levels):
    """Each run, as its words, what it is given and what it has to write."""
    for is_pointer in (False, True):
        given, wanted = session(levels, is_pointer)
        given, wanted = given.encode(), wanted.encode()
        for way in WAYS:
            yield [sjval, *way], given, wanted
    given, wanted = made(made_levels)
    given, wanted = given.encode(), wanted.encode()
    for form, *known in WAYS:
        yield [deep, 'commands', form, *(known or ['text']), str(made_levels)], given, wanted
    wanted = copied(made_levels).encode()
    for form in ('owned', 'borrowed', 'lazy'):
        yield [deep, 'copies', form, str(made_levels)], b'', wanted


def main():
    sjval, deep, *numbers = sys.argv[1:]
    levels, made_levels = [*map(int, numbers), *[50_000, 1_000_000][len(numbers):]]
    with ThreadPoolExecutor(os.cpu_count()) as pool:
        results = list(pool.map(lambda run: passes(*run), runs(sjval, deep, levels, made_levels)))
    print(f'{sum(results)} passed, {len(results) - sum(results)} failed')
    return not all(results)


if __name__ == '__main__':
    sys.exit(main())
