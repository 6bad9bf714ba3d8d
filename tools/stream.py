#!/usr/bin/env python3
"""Sends a stream of messages through sjroute, jq and a loop of python3's json, and tells time, peak memory and ratios.

Usage: tools/stream.py SJROUTE [--megabytes N]; 1000 if none is given. Needs jq. It writes the stream, of lines of about 1 KB, and what
is selected of it, into a folder that it removes. Each reads every message and writes those whose member `topic` is "news"; what jq and
python3 select is compared with what sjroute selects. One run each, on an otherwise idle machine.
"""
import argparse
import random
import re
import subprocess
import sys
import tempfile
import time
from pathlib import Path

LOOP = """
import json, sys
for line in sys.stdin.buffer:
    if json.loads(line).get("topic") == "news":
        sys.stdout.buffer.write(line)
"""
TOPICS = ["news", "sport", "weather", "traffic"]
TEXT = r'The quick brown fox jumps over the lazy dog; \u00e9t\u00e9 \"quoted\" \\ 漢字 '


def message(source, number):
    """The text of a message, of about 1 KB."""
    records = ",".join(
        f'{{"id":{source.randrange(10**9)},"on":{source.choice(["true", "false"])},"tags":["a","bc",{source.randrange(100)}]}}'
        for _ in range(8)
    )
    body = TEXT * source.randrange(6, 12)
    head = f'"number":{number},"source":"unit {number % 97}","topic":"{source.choice(TOPICS)}"'
    return f'{{{head},"body":"{body}","records":[{records}]}}\n'.encode()


def write(path, size):
    source = random.Random(1)
    lines = [message(source, number) for number in range(5000)]
    with path.open("wb") as out:
        block, blocks = b"".join(lines), 0
        while len(block) * blocks < size:
            out.write(block)
            blocks += 1
    return len(block) * blocks, len(lines) * blocks


def run(name, words, given, folder):
    """The seconds and the peak of memory, in MB, of a run."""
    with given.open("rb") as source, Path(folder, name).open("wb") as out:
        start = time.monotonic()
        child = subprocess.Popen(words, stdin=source, stdout=out, stderr=subprocess.PIPE, cwd=folder)
        peak = 0
        while child.poll() is None:
            peak = max(peak, high_water(child.pid))
            time.sleep(0.02)
        seconds = time.monotonic() - start
    if child.returncode:
        sys.exit(f"{name} ended with {child.returncode}: {child.stderr.read().decode()}")
    return seconds, peak / 1024


def high_water(pid):
    """The peak of memory so far, in KB, as the system tells it."""
    try:
        found = re.search(r"^VmHWM:\s*(\d+) kB", Path(f"/proc/{pid}/status").read_text(), re.M)
    except OSError:
        found = None
    return int(found[1]) if found else 0


def main():
    words = argparse.ArgumentParser()
    words.add_argument("program")
    words.add_argument("--megabytes", type=int, default=1000)
    words = words.parse_args()
    program = Path(words.program).resolve()
    with tempfile.TemporaryDirectory() as folder:
        given = Path(folder, "messages")
        size, count = write(given, words.megabytes * 10**6)
        Path(folder, "rules.json").write_text('[{"output":"-","key":"topic","value":"news"}]')
        Path(folder, "merging.json").write_text('[{"output":"-","key":"topic","value":"news","merge":{"seen":true,"body":null}}]')
        runs = {
            "sjroute": [program, "rules.json"],
            "sjroute, merging": [program, "merging.json"],
            "jq": ["jq", "-c", 'select(.topic == "news")'],
            "python3": [sys.executable, "-c", LOOP],
        }
        print(f"{size / 1e6:.0f} MB in lines of {size // count} bytes")
        first = None
        for name, line in runs.items():
            seconds, peak = run(name, line, given, folder)
            first = first or seconds
            print(f"{name}: {seconds:.1f} s, {size / seconds / 1e6:.0f} MB/s, {seconds / first:.1f} times the first, peak {peak:.1f} MB")
        same = Path(folder, "sjroute").read_bytes() == Path(folder, "python3").read_bytes()
        counts = [Path(folder, name).read_bytes().count(10) for name in ("sjroute", "jq")]
        print(f"what python3 selects is {'the same' if same else 'ANOTHER'}; lines of sjroute and jq: {counts[0]}, {counts[1]}")
        return 0 if same and counts[0] == counts[1] else 1


if __name__ == "__main__":
    sys.exit(main())
