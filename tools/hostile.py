#!/usr/bin/env python3
"""Times the program on inputs that an enemy would choose, and on a usual session: a line for each with the seconds of its processor
and its peak memory.

Usage: tools/hostile.py PROGRAM [WORD], with WORD the inputs alone whose names have it. None of these numbers is promised; each run has
to end with status 0 or 3, on a stack of 512 KB. The last line is 'N passed, M failed'.
"""

import json
import random
import subprocess
import sys
import tempfile

import deep

MEGABYTE = 10**6

# A process of its own, since what a process has at its start counts among its peak.
MEASURE = """
import os, resource, subprocess, sys
resource.setrlimit(resource.RLIMIT_STACK, (512 * 1024, 512 * 1024))
ran = subprocess.Popen(sys.argv[1:], stdout=subprocess.DEVNULL, stderr=subprocess.DEVNULL)
_, status, used = os.wait4(ran.pid, 0)
print(os.waitstatus_to_exitcode(status), used.ru_utime + used.ru_stime, used.ru_maxrss)
"""


def of_one_hash(count):
    """That many keys whose hash is one: each block is `Aa` or `BB`."""
    for number in range(count):
        yield ''.join('BB' if number >> bit & 1 else 'Aa' for bit in range(17))


def an_object(keys):
    return '{' + ','.join(f'"{key}":{at}' for at, key in enumerate(keys)) + '}'


def a_user(draw, number):
    """A member of some hundred values."""
    fields = {f'field{at:02}': 'v' * draw.randint(10, 300) if at % 3 else at * number for at in range(36)}
    scores = [draw.randint(0, 10 ** draw.randint(1, 12)) for _ in range(60)]
    return {'name': f'name {number}', 'roles': ['admin', 'guest', 'x' * draw.randint(5, 30)], 'scores': scores, 'profile': fields}


def a_command(draw, number, users):
    """A read or a write at a path of up to three steps."""
    user, field, place = f'user{draw.randrange(users):05}', f'field{draw.randrange(40):02}', draw.randrange(60)
    return [
        ['encode', [user, 'scores', place]],
        ['str', [user, 'profile', field]],
        ['put', [user, 'scores', place], number],
        ['has', [user, 'profile'], field],
        ['insert', [user, 'profile'], field, number],
        ['kind', [user, 'roles', place % 3]],
        ['fits', [user, 'scores', place], 'u16'],
        ['len', [user, 'roles']],
    ][number % 8]


def a_session(users, commands):
    draw = random.Random(5)
    document = {f'user{number:05}': a_user(draw, number) for number in range(users)}
    lines = [document, *(a_command(draw, number, users) for number in range(commands))]
    texts = [json.dumps(it, separators=(',', ':')) for it in lines]
    return '\n'.join([texts[0], '---', *texts[1:]])


def inputs():
    """Each a name and an input, or what makes it."""
    encode = '\n---\n["len",[]]\n'
    yield 'a session of 200,000 commands', a_session(4000, 200_000)
    yield 'a session of 50,000 commands', a_session(1000, 50_000)
    yield '100,000 keys without a pattern', an_object(f'key {at * 7919 % 100_000:05}' for at in range(100_000)) + encode
    yield '100,000 keys of one hash', an_object(of_one_hash(100_000)) + encode
    yield 'an object in 1,023 objects', '{"a":' * 1023 + '{}' + '}' * 1023 + '\n---\n["encode",[]]\n'
    yield '50 MB of records', '[' + ','.join(['{"id":12345678,"name":"a name","tags":["x","y"]}'] * (50 * MEGABYTE // 49)) + ']' + encode
    yield '50 MB of brackets', '[' + '[],' * (50 * MEGABYTE // 3) + '0]' + encode
    yield 'a line of 10 MB', '[]\n---\n["push",[],"' + 'a' * (10 * MEGABYTE) + '"]\n["len",[]]\n'
    yield 'a bad line of 10 MB', '[]\n---\n' + '[' * (10 * MEGABYTE) + '\n["len",[]]\n'
    yield 'a line of 10 MB, a path of 2,500,000 steps', '[]\n---\n["len",[' + '"a",' * (10 * MEGABYTE // 4) + '"a"]]\n'
    yield '1,000,000 levels made by edits', lambda: deep.session(1_000_000, False)[0]


def main():
    program, *words = sys.argv[1:]
    statuses = []
    with tempfile.NamedTemporaryFile('w+', encoding='utf-8') as given:
        for name, text in inputs():
            if not all(it in name for it in words):
                continue
            if callable(text):
                text = text()
            given.seek(0)
            given.truncate()
            given.write(text)
            given.flush()
            for form in ('owned', 'borrowed', 'lazy'):
                with open(given.name, 'rb') as source:
                    ran = subprocess.run([sys.executable, '-c', MEASURE, program, form], stdin=source, stdout=subprocess.PIPE, check=True)
                status, seconds, peak = ran.stdout.split()
                statuses.append(int(status))
                print(f'{name}, {form}: status {int(status)}, {len(text) / MEGABYTE:.1f} MB, {float(seconds):.2f} s, '
                      f'peak {int(peak) * 1024 / MEGABYTE:.0f} MB', flush=True)
    passed = sum(status in (0, 3) for status in statuses)
    print(f'{passed} passed, {len(statuses) - passed} failed')
    return 0 if statuses and passed == len(statuses) else 1


if __name__ == '__main__':
    sys.exit(main())
