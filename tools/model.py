"""Documents, command lines and their replies on plain trees, by RFC 8259, RFC 6901 and the rules of docs/DEFINITIONS.md alone.

It shares nothing with the program. A tree is None, a bool, a number as ('int', value, carrier), a text as str, an array as
('list', [..]), an object as ('obj', [(key, value), ..]). A step is a key as str, a place as int, or a pointer's token as ('token', text).
"""

import re

from reading import Unread, read

FIRST, LAST = 'first', 'last'


def keep(tree, choice=FIRST):
    """Of each key one member stays, at every depth, where its first one stood."""
    if is_list(tree):
        return ('list', [keep(item, choice) for item in tree[1]])
    if is_obj(tree):
        kept = {}
        for key, value in tree[1]:
            if choice == LAST or key not in kept:
                kept[key] = value
        return ('obj', [(key, keep(value, choice)) for key, value in kept.items()])
    return tree


# ---- kinds and prints


def is_int(tree):
    return isinstance(tree, tuple) and tree[0] == 'int'


def is_list(tree):
    return isinstance(tree, tuple) and tree[0] == 'list'


def is_obj(tree):
    return isinstance(tree, tuple) and tree[0] == 'obj'


def kind(tree):
    if tree is None:
        return 'Null'
    if isinstance(tree, bool):
        return 'Bool'
    if isinstance(tree, str):
        return 'String'
    return {'int': lambda: tree[2], 'list': lambda: 'Array', 'obj': lambda: 'Object'}[tree[0]]()


SHORT = {'"': '\\"', '\\': '\\\\', '\b': '\\b', '\t': '\\t', '\n': '\\n', '\f': '\\f', '\r': '\\r'}


def quoted(text):
    out = []
    for char in text:
        out.append(SHORT.get(char) or ('\\u%04x' % ord(char) if ord(char) < 0x20 else char))
    return '"' + ''.join(out) + '"'


def scalar(tree):
    if tree is None:
        return 'null'
    if isinstance(tree, bool):
        return 'true' if tree else 'false'
    if isinstance(tree, str):
        return quoted(tree)
    return str(tree[1])


def compact(tree):
    if is_list(tree):
        return '[' + ','.join(compact(item) for item in tree[1]) + ']'
    if is_obj(tree):
        return '{' + ','.join(quoted(key) + ':' + compact(value) for key, value in tree[1]) + '}'
    return scalar(tree)


def pretty(tree, level=0):
    inside, behind = '\n' + '  ' * (level + 1), '\n' + '  ' * level
    if is_list(tree) and tree[1]:
        return '[' + inside + (',' + inside).join(pretty(item, level + 1) for item in tree[1]) + behind + ']'
    if is_obj(tree) and tree[1]:
        members = (quoted(key) + ': ' + pretty(value, level + 1) for key, value in tree[1])
        return '{' + inside + (',' + inside).join(members) + behind + '}'
    return compact(tree)


# ---- commands

WIDTHS = {'i8': (-2**7, 2**7), 'i16': (-2**15, 2**15), 'i32': (-2**31, 2**31), 'i64': (-2**63, 2**63),
          'i128': (-2**127, 2**127), 'u8': (0, 2**8), 'u16': (0, 2**16), 'u32': (0, 2**32), 'u64': (0, 2**64),
          'u128': (0, 2**128), 'usize': (0, 2**64)}
READS = {'kind': 0, 'fits': 1, 'str': 0, 'len': 0, 'keys': 0, 'has': 1, 'encode': 0, 'encode_pp': 0}
WRITES = {'insert': 2, 'remove': 1, 'push': 1, 'pop': 0, 'put': 1}


def is_step(tree):
    return isinstance(tree, str) or (is_int(tree) and 0 <= tree[1] < 2**64)


def tokens(text):
    """The tokens of a pointer (RFC 6901, sections 3 and 4); None where the text is none."""
    if text == '':
        return []
    if text[0] != '/' or re.search('~(?![01])', text):
        return None
    return [token.replace('~1', '/').replace('~0', '~') for token in text[1:].split('/')]


def position(token):
    """The position that a token names on an array (RFC 6901, section 4); None where it names none."""
    return int(token) if re.fullmatch('0|[1-9][0-9]*', token) and int(token) < 2**64 else None


def path_of(tree):
    """The steps of a path: an array of texts and places, or a pointer as a text; None where it is neither."""
    if isinstance(tree, str):
        found = tokens(tree)
        return None if found is None else [('token', token) for token in found]
    if not is_list(tree) or not all(map(is_step, tree[1])):
        return None
    return [step if isinstance(step, str) else step[1] for step in tree[1]]


def command_of(line):
    """The command that a line is, as (name, path, what it takes); None for a bad one."""
    try:
        tree = keep(read(line))
    except Unread:
        return None
    if not is_list(tree) or len(tree[1]) < 2:
        return None
    name, path, *rest = tree[1]
    steps = path_of(path)
    if not isinstance(name, str) or steps is None:
        return None
    if {**READS, **WRITES}.get(name) != len(rest):
        return None
    if name in ('has', 'remove', 'insert') and not isinstance(rest[0], str):
        return None
    if name == 'fits' and not (isinstance(rest[0], str) and rest[0] in WIDTHS):
        return None
    return name, steps, rest


def find(tree, step, choice=FIRST):
    """The place of what the step finds among the parts of the tree; None where it finds nothing."""
    if isinstance(step, tuple):
        step = position(step[1]) if is_list(tree) else step[1]
    if isinstance(step, str) and is_obj(tree):
        places = [at for at, (key, _) in enumerate(tree[1]) if key == step]
        return places[0 if choice == FIRST else -1] if places else None
    if isinstance(step, int) and is_list(tree) and step < len(tree[1]):
        return step
    return None


def part(tree, at):
    return tree[1][at][1] if is_obj(tree) else tree[1][at]


def changed(tree, name, rest):
    """The tree after a write at it, and the reply."""
    if name == 'put':
        return rest[0], compact(tree)
    if name in ('push', 'pop'):
        if not is_list(tree):
            return tree, 'not an array'
        if name == 'push':
            return ('list', tree[1] + [rest[0]]), 'ok'
        return ('list', tree[1][:-1]), compact(tree[1][-1]) if tree[1] else 'none'
    if not is_obj(tree):
        return tree, 'not an object'
    at = find(tree, rest[0])
    old = 'none' if at is None else compact(part(tree, at))
    if name == 'remove':
        return ('obj', [member for i, member in enumerate(tree[1]) if i != at]), old
    if at is None:
        return ('obj', tree[1] + [(rest[0], rest[1])]), old
    return ('obj', [(key, rest[1] if i == at else value) for i, (key, value) in enumerate(tree[1])]), old


def edit(tree, path, name, rest):
    if not path:
        return changed(tree, name, rest)
    at = find(tree, path[0])
    if at is None:
        return tree, 'missing'
    new, reply = edit(part(tree, at), path[1:], name, rest)
    if is_obj(tree):
        return ('obj', [(key, new if i == at else value) for i, (key, value) in enumerate(tree[1])]), reply
    return ('list', [new if i == at else item for i, item in enumerate(tree[1])]), reply


def read_reply(tree, name, rest):
    if name == 'kind':
        return kind(tree)
    if name == 'fits':
        low, high = WIDTHS[rest[0]]
        return 'true' if is_int(tree) and low <= tree[1] < high else 'false'
    if name == 'str':
        return quoted(tree) if isinstance(tree, str) else 'not a string'
    if name == 'len':
        return str(len(tree[1])) if is_list(tree) or is_obj(tree) else 'no length'
    if name == 'keys':
        return '[' + ','.join(quoted(key) for key, _ in tree[1]) + ']' if is_obj(tree) else 'not an object'
    if name == 'has':
        return 'true' if is_obj(tree) and find(tree, rest[0]) is not None else 'false'
    return compact(tree) if name == 'encode' else pretty(tree)


def answer(tree, line, choice=FIRST):
    """The tree after a line, and the printed reply. A write works on the kept tree, a read on the tree as it is."""
    command = command_of(line)
    if command is None:
        return tree, 'bad command'
    name, path, rest = command
    if name in WRITES:
        return edit(keep(tree, choice), path, name, rest)
    at = tree
    for step in path:
        place = find(at, step, choice)
        if place is None:
            return tree, 'missing'
        at = part(at, place)
    return tree, read_reply(at, name, rest)


# ---- sessions


def cut(given):
    """The document of an input, and its command lines."""
    at = 0
    while at < len(given):
        end = given.find(b'\n', at)
        end = len(given) if end < 0 else end
        if uncarried(given[at:end]) == b'---':
            lines = given[end + 1:].split(b'\n')
            return given[:at], [line for line in map(uncarried, lines) if line]
        at = end + 1
    return given, []


def uncarried(line):
    return line[:-1] if line.endswith(b'\r') else line


def session(given, is_lazy, choice):
    """What a session over the bytes of an input writes; Unread where its document is refused."""
    document, lines = cut(given)
    tree = read(document)
    if not is_lazy:
        tree = keep(tree, choice)
    replies = []
    for line in lines:
        tree, reply = answer(tree, line, choice)
        replies.append(reply + '\n')
    return ''.join(replies).encode()
