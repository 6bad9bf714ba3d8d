#!/usr/bin/env python3
"""Measures how many levels a comparison, `{:?}` and a merge of documents go down on a stack of 8 MB and of 512 KB.

Usage: tools/stack.py DEEP, the program of crates/deep. A line for each call and stack has the most levels at which the program ended with
status 0, and the bytes of stack that a level takes.
"""

import resource
import subprocess
import sys

STACKS = [('8 MB', 8 << 20), ('512 KB', 512 << 10)]


def ends(program, call, levels, stack):
    """Whether the call ends on documents of so many levels."""
    def limited():
        resource.setrlimit(resource.RLIMIT_STACK, (stack, stack))
    ran = subprocess.run([program, call, str(levels)], stdout=subprocess.DEVNULL, stderr=subprocess.DEVNULL, preexec_fn=limited, check=False)
    return ran.returncode == 0


def most_levels(program, call, stack):
    """The most levels at which it ends, by halving."""
    low, high = 0, stack // 16
    while low + 1 < high:
        middle = (low + high) // 2
        if ends(program, call, middle, stack):
            low = middle
        else:
            high = middle
    return low


def main():
    program = sys.argv[1]
    for call in ('same', 'debug', 'merge'):
        for name, stack in STACKS:
            levels = most_levels(program, call, stack)
            print(f'{call} on {name}: {levels} levels, {stack / max(levels, 1):.0f} bytes each')


if __name__ == '__main__':
    main()
