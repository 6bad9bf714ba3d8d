#!/usr/bin/env python3
"""Gives lists of nodes to the program of crates/refusals, and compares with what a preorder is by its definition alone.

Usage: tools/broken_nodes.py PROGRAM [--seconds N] [--cases N] [--seed N]. Half of the lists are preorders of trees, the others are
such lists with a number, a node or an end changed. A run that cannot be made, or ends with another status than 0, fails with all its
lists. The same seed gives the same cases. The last line is 'N passed, M failed'.
"""

import argparse
import json
import random
import subprocess
import sys
import time

import model

USIZE_MAX = 2**64 - 1
SCALARS = [None, True, False, 0, -1, 2**64, 'k', '', 'a"b']
LISTS_A_RUN = 200


def tree(source, depth):
    choice = source.randrange(4 if depth else 2)
    if choice < 2:
        scalar = source.choice(SCALARS)
        return ('int', scalar, None) if isinstance(scalar, int) and not isinstance(scalar, bool) else scalar
    size = source.randrange(4)
    if choice == 2:
        return ('list', [tree(source, depth - 1) for _ in range(size)])
    return ('obj', [(source.choice(('', 'k', 'a"b')), tree(source, depth - 1)) for _ in range(size)])


def preorder(of):
    """The nodes of a tree: a container is ['A' or 'O', how many parts, how many nodes follow inside]."""
    if model.is_list(of) or model.is_obj(of):
        inside = []
        for part in of[1]:
            inside += preorder(part) if model.is_list(of) else [part[0], *preorder(part[1])]
        return [['A' if model.is_list(of) else 'O', len(of[1]), len(inside)], *inside]
    return [of[1] if model.is_int(of) else of]


def taken(nodes, at):
    """The tree whose preorder begins there, and where it ends; None where there is none."""
    if at >= len(nodes):
        return None
    node = nodes[at]
    if not isinstance(node, list):
        is_number = isinstance(node, int) and not isinstance(node, bool)
        return (('int', node, None) if is_number else node), at + 1
    name, length, count = node
    end, at, parts = at + 1 + count, at + 1, []
    # a list that is refused for its length ends the search before it costs anything
    for _ in range(min(length, len(nodes) + 1)):
        key = nodes[at] if name == 'O' and at < len(nodes) else None
        if name == 'O' and not isinstance(key, str):
            return None
        part = taken(nodes, at + (name == 'O'))
        if part is None:
            return None
        parts.append((key, part[0]) if name == 'O' else part[0])
        at = part[1]
    if len(parts) != length or at != end:
        return None
    return ('list' if name == 'A' else 'obj', parts), at


def wanted(nodes):
    found = taken(nodes, 0)
    return model.compact(found[0]) if found and found[1] == len(nodes) else 'refused'


def broken(source, nodes):
    nodes = [list(node) if isinstance(node, list) else node for node in nodes]
    containers = [node for node in nodes if isinstance(node, list)]
    turn = source.randrange(6)
    at = source.randrange(len(nodes) + 1)
    if turn < 3 and containers:
        node = source.choice(containers)
        place = source.choice((1, 2))
        node[place] = source.choice((max(node[place] - 1, 0), node[place] + 1, 0, USIZE_MAX, source.randrange(9)))
        if source.randrange(3) == 0:
            node[3 - place] = max(node[3 - place] + source.choice((-1, 1)), 0)
    elif turn == 3:
        nodes[at:at + 1] = []
    elif turn == 4:
        nodes[at:at] = [source.choice((None, 'k', ['A', 0, 0], ['O', 0, 0], ['A', 1, 1], ['A', USIZE_MAX, USIZE_MAX]))]
    elif containers:
        node = source.choice(containers)
        node[0] = 'O' if node[0] == 'A' else 'A'
    return nodes


def run(program, words):
    """What the program tells of the lists, a line for each, and how it ended."""
    try:
        ran = subprocess.run([program, 'nodes', *words], capture_output=True, timeout=60)
    except (OSError, subprocess.TimeoutExpired) as why:
        return [], f'no run: {why}'
    told = ran.stdout.decode(errors='replace').split('\n')[:-1]
    ended = f'status {ran.returncode}, {len(told)} lines, {ran.stderr[:200]!r}'
    return (told if ran.returncode == 0 and not ran.stderr else []), ended


def main():
    parser = argparse.ArgumentParser()
    parser.add_argument('program')
    parser.add_argument('--seconds', type=float, default=10)
    parser.add_argument('--cases', type=int, default=100_000)
    parser.add_argument('--seed', type=int, default=1)
    options = parser.parse_args()
    source = random.Random(options.seed)
    until = time.monotonic() + options.seconds
    passed = failed = 0
    while time.monotonic() < until and passed + failed < options.cases:
        lists = []
        for _ in range(LISTS_A_RUN):
            nodes = preorder(tree(source, 4))
            lists.append(broken(source, nodes) if source.randrange(2) else nodes)
        words = [json.dumps(nodes, ensure_ascii=False) for nodes in lists]
        told, ended = run(options.program, words)
        for at, nodes in enumerate(lists):
            got = told[at] if len(told) == len(lists) else ended
            if got == wanted(nodes):
                passed += 1
            else:
                failed += 1
                print(f'failed: {nodes}\n  want {wanted(nodes)}\n  got {got}'[:2000])
    print(f'{passed} passed, {failed} failed')
    return 1 if failed or not passed else 0


if __name__ == '__main__':
    sys.exit(main())
