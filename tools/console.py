#!/usr/bin/env python3
"""Repeats the runs of a page: each indented block whose first line begins with `$ `.

Usage: tools/console.py PAGE PROGRAM. The lines that begin with `$ ` are given to bash in one folder of their own, with the program
under its name; the lines behind each are what it writes, standard output and standard error together. Tells each run that writes
something else, and ends with 1 where it told one.
"""
import os
import re
import subprocess
import sys
import tempfile
from pathlib import Path


def runs(text):
    """The commands of a page, each with what it writes."""
    for block in re.findall(r"(?:^    .*\n)+", text + "\n", re.M):
        lines = [line[4:] for line in block.splitlines()]
        if not lines[0].startswith("$ "):
            continue
        at = 0
        while at < len(lines):
            command, behind = lines[at][2:], at + 1
            while behind < len(lines) and not lines[behind].startswith("$ "):
                behind += 1
            yield command, "".join(line + "\n" for line in lines[at + 1 : behind])
            at = behind


def main():
    page, program = Path(sys.argv[1]), Path(sys.argv[2]).resolve()
    count = wrong = 0
    with tempfile.TemporaryDirectory() as folder:
        Path(folder, "bin").mkdir()
        Path(folder, "bin", program.name).symlink_to(program)
        Path(folder, "work").mkdir()
        path = f"{folder}/bin:{os.environ['PATH']}"
        for command, want in runs(page.read_text()):
            run = subprocess.run(
                ["bash", "-c", command],
                cwd=f"{folder}/work",
                env={**os.environ, "PATH": path},
                stdout=subprocess.PIPE,
                stderr=subprocess.STDOUT,
                text=True,
            )
            count += 1
            if run.stdout != want:
                print(f"{page.name}: {command}\nwrote\n{run.stdout}and not\n{want}")
                wrong += 1
    print(f"{count} runs of {page.name}, {wrong} differ")
    return 1 if wrong or not count else 0


if __name__ == "__main__":
    sys.exit(main())
