#!/usr/bin/env python3
"""Lays the instructions of the measuring programs' cases beside one another in two built checkouts, by callgrind.

Usage: tools/counted.py OLD NEW lookups|removals [CASE ..], with OLD and NEW checkouts in which `rt run` was run in crates/bench_reader
and crates/bench_maps. A CASE is one argument with the words that the program takes, without the rounds, and `|` between words that are
taken in turn, as 'scalars 8|64 12 last|absent first packed' or 'front 1000'; without one there are those below. Its instructions are
those of so many rounds less those of none, a round; where each round fills a map, the filling is taken off. It stops where the
answers differ, at words that are no case, and where a program or valgrind is missing.
"""

import functools
import itertools
import re
import shutil
import subprocess
import sys
from concurrent.futures import ThreadPoolExecutor
from pathlib import Path

CRATES = {'lookups': 'bench_reader', 'removals': 'bench_maps'}

CASES = {
    # a shape, members, the length of a key, the key, the choice, the form
    'lookups': [
        'scalars 2|8|64|1000|1100 12 first|last|absent first packed',
        'scalars 2|8|64|1000 12 first|absent last packed',
        'scalars 8|1000 6|20|100 last|absent first packed',
        'mixed|pairs|arrays 8|1000 12 last|absent first packed',
        'records 64|300 12 first|last|absent first packed',
        'mixed|arrays 8|1000 12 absent last packed',
        'arrays 50000 12 absent first|last packed',
        'wide 64|1000|1100 12 first|last|absent first packed',
        'wide 50000 12 last|absent first packed',
        'scalars 2|8|64|1000 12 last|absent first|last plain',
    ],
    # what is done, members
    'removals': [
        'fill|find|walk|pop|take|drain 4|32|64|1000',
        'front|front_pops|middle|middle_pops|ends|turn 4|32|64|1000',
        'alike|alike_whole|fill_alike 1000',
        'front_alike|front_pops_alike|middle_alike|middle_pops_alike 1000',
    ],
}

# The case of removals that fills a map as this one does in each round.
FILLING = {name: 'fill' for name in ('pop', 'take', 'drain', 'front', 'front_pops', 'middle', 'middle_pops')}
FILLING |= {name: 'fill_alike' for name in ('front_alike', 'front_pops_alike', 'middle_alike', 'middle_pops_alike')}

# Those in which a round is one call.
ONE_CALL = {'ends', 'turn', 'alike', 'alike_whole'}


def spread(case):
    """The words of each case that it stands for."""
    return itertools.product(*(word.split('|') for word in case.split()))


def rounds_of(word, case):
    members = next((int(part) for part in case if part.isdigit()), 1)
    if word == 'removals':
        return 2000 if case[0] in ONE_CALL else max(2, 20_000 // members)
    return max(10, min(2000, 200_000 // members))


def run(program, words):
    """The instructions that the program takes, and what it prints."""
    command = ['valgrind', '--tool=callgrind', '--callgrind-out-file=/dev/null', program, *words]
    ran = subprocess.run(command, stdin=subprocess.DEVNULL, capture_output=True, text=True)
    if ran.stdout == 'no such case\n':
        sys.exit(f'{" ".join(words)}: no such case')
    collected = re.search(r'Collected : (\d+)', ran.stderr)
    if ran.returncode != 0 or not collected:
        sys.exit(f'{" ".join(map(str, command))}: status {ran.returncode}\n{ran.stdout}{ran.stderr}')
    return int(collected[1]), ran.stdout


@functools.cache
def counted(program, word, case):
    """The instructions of a round, and what was printed."""
    rounds = rounds_of(word, case)
    none, _ = run(program, [word, *case, '0'])
    total, answer = run(program, [word, *case, str(rounds)])
    return (total - none) / rounds, answer


def without_filling(program, word, case):
    instructions, answer = counted(program, word, case)
    filling = FILLING.get(case[0]) if word == 'removals' else None
    if filling:
        instructions -= counted(program, word, (filling, *case[1:]))[0]
    return instructions, answer


def programs_in(checkouts, crate):
    """The programs of that crate, which have to be there, as valgrind has."""
    if not shutil.which('valgrind'):
        sys.exit("valgrind is missing: Debian's package is valgrind")
    programs = [Path(checkout).resolve() / 'crates' / crate / 'out' / crate for checkout in checkouts]
    for program in programs:
        if not program.is_file():
            sys.exit(f'{program} is missing: `rt run` in its crate builds it')
    return programs


def main():
    if len(sys.argv) < 4 or sys.argv[3] not in CRATES:
        sys.exit(__doc__)
    *checkouts, word = sys.argv[1:4]
    programs = programs_in(checkouts, CRATES[word])
    print('| case | old | new | new over old |\n|---|---|---|---|')
    with ThreadPoolExecutor(2) as pool:
        for case in itertools.chain.from_iterable(map(spread, sys.argv[4:] or CASES[word])):
            (old, was), (new, told) = pool.map(lambda program: without_filling(program, word, case), programs)
            if was != told:
                sys.exit(f'{" ".join(case)}: the answers differ: {was}{told}')
            print(f'| {" ".join(case)} | {old:.1f} | {new:.1f} | {new / old:.2f} |', flush=True)


if __name__ == '__main__':
    main()
