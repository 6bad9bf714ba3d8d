#!/usr/bin/env python3
"""Looks whether each Rust snippet of the pages stands, word for word, in a source that the gate compiles.

Usage: tools/snippets.py [PAGE..]; README.md and docs/**/*.md if none is given. A block that begins with ```rust has to be consecutive
lines of one .rt file of a crate that is no crate of tests, at any indentation; blank lines part it into pieces that may stand apart
in that file. In a page COOKBOOK.md a block has to be the whole of one file of crates/sj_recipes/src, without the lines of its head that
begin with `//!` and the blank line behind them; and each `use crate::FILE::..` in it has to name a file that is a block of that page;
a ```text block that begins with `use Rattle.` has to be the whole of one file of its proofs.
Each line of an example in a library's comments has to stand in crates/sj_recipes, or in a test where that has it not: without what
follows `//`, and maybe inside of a longer line. A block that begins with ```c, ```rs or ```python has to stand in an example of
bindings/ that its tests run, in the same way. Tells each piece or line that is in none, and ends with 1 where it told one; the last
line has the numbers.
"""
import re
import sys
import textwrap
from pathlib import Path

ROOT = Path(__file__).resolve().parent.parent
RECIPES = ROOT / "crates" / "sj_recipes" / "src"


def plain(text):
    return textwrap.dedent(text).strip("\n")


def stands(piece, sources):
    """Whether the piece is lines of one source, at some indentation."""
    first = piece.split("\n")[0]
    for text in sources:
        for found in re.finditer(rf"^( *){re.escape(first)}$", text, re.M):
            moved = textwrap.indent(piece, found[1])
            behind = text[found.start() :]
            if behind.startswith(moved) and behind[len(moved) :][:1] in ("", "\n"):
                return True
    return False


def bare(text):
    """The code alone, without spaces and commas in front of an end."""
    lines = [line for line in text.split("\n") if not line.lstrip().startswith("//")]
    return re.sub(r",(?=[)\]}])", "", re.sub(r"\s+", "", "\n".join(lines)))


def examples(path):
    """The lines of the examples in the comments of a source, each with its number and its code."""
    text = path.read_text()
    for block in re.finditer(r"^( *//[/!]) ```\n((?:\1.*\n)*?)\1 ```$", text, re.M):
        first = text[: block.start(2)].count("\n") + 1
        for number, line in enumerate(block[2].rstrip("\n").split("\n"), first):
            code = bare(re.sub(r"(^|\s+)// .*$", "", re.sub(r"^ *//[/!] ?", "", line))).rstrip(";,")
            if code.strip("{}"):
                yield number, code


def untried():
    """Each line of an example in a library's comments that no source has, and how many lines there are."""
    tried = [bare(p.read_text()) for p in sorted((ROOT / "crates").glob("sj_*/src/**/*.rt"))]
    count, wrong = 0, []
    for path in sorted((ROOT / "crates").glob("sj_*/src/**/*.rt")):
        for number, code in examples(path):
            count += 1
            if not any(code in text for text in tried):
                wrong.append(f"{path.relative_to(ROOT)}:{number}: in no source: {code}")
    return count, wrong


def blocks(page, kind="rust"):
    """The blocks of a kind of a page, each with its line and its text."""
    text = page.read_text()
    for block in re.finditer(rf"^```{kind}\n(.*?)^```$", text, re.S | re.M):
        yield text[: block.start()].count("\n") + 1, block[1]


def unstanding(page, sources):
    """What of a page stands in no source, and how many pieces the page has."""
    count, wrong = 0, []
    for line, block in blocks(page):
        pieces = [plain(block)]
        if not stands(pieces[0], sources):
            pieces = [plain(p) for p in re.split(r"\n\n(?=\S)", plain(block))]
        count += len(pieces)
        wrong += [f"{page}:{line}: in no source: {p.splitlines()[0]}" for p in pieces if not stands(p, sources)]
    return count, wrong


def unlike_files(page):
    """The blocks of a page that are no whole file, or use a file that the page has not; and how many blocks there are."""
    files = {re.sub(r"\A(//!.*\n)+\n", "", p.read_text()): p for p in sorted(RECIPES.rglob("*.rt"))}
    found = [(line, block, files.get(block)) for line, block in blocks(page)]
    shown = {".".join(file.relative_to(RECIPES).with_suffix("").parts) for _, _, file in found if file}
    wrong = []
    for line, block, file in found:
        if not file:
            wrong.append(f"{page}:{line}: no whole file: {plain(block).splitlines()[0]}")
        for path in re.findall(r"\bcrate::([\w:]+)", block):
            parts = path.split("::")
            if not any(".".join(parts[:n]) in shown for n in range(1, len(parts) + 1)):
                wrong.append(f"{page}:{line}: not on the page: crate::{path}")
    proofs = [p.read_text() for p in (RECIPES.parent / "proofs").rglob("*.antt")]
    proof = [(line, block) for line, block in blocks(page, "text") if block.startswith("use Rattle.")]
    wrong += [f"{page}:{line}: no whole file of proofs" for line, block in proof if block not in proofs]
    return len(found) + len(proof), wrong


# the programs that tools/bindings.sh runs
EXAMPLES = {"c": "bindings/c/example.c", "rs": "bindings/rust/examples/*.rs", "python": "bindings/python/example.py"}


def in_no_example(page):
    """What of a page in another language stands in no example of the bindings, and how many pieces there are."""
    count, wrong = 0, []
    for kind, pattern in EXAMPLES.items():
        sources = [path.read_text() for path in sorted(ROOT.glob(pattern))]
        for line, block in blocks(page, kind):
            for piece in re.split(r"\n\n(?=\s*\S)", block.strip("\n")):
                count += 1
                if not stands(plain(piece), sources):
                    wrong.append(f"{page}:{line}: in no example: {piece.splitlines()[0]}")
    return count, wrong


def main():
    pages = [Path(p) for p in sys.argv[1:]] or [ROOT / "README.md", *sorted((ROOT / "docs").rglob("*.md"))]
    sources = [p.read_text() for p in sorted((ROOT / "crates").glob("*/src/**/*.rt")) if "sj_tests" not in str(p)]
    shown, wrong = (0, []) if sys.argv[1:] else untried()
    count = 0
    for page in pages:
        for pieces, lines in [
            unlike_files(page) if page.name == "COOKBOOK.md" else unstanding(page, sources),
            in_no_example(page),
        ]:
            count += pieces
            wrong += lines
    for line in wrong:
        print(line)
    print(f"{len(pages)} pages, {count} snippets, {shown} lines of examples, {len(wrong)} in no source")
    return 1 if wrong else 0


if __name__ == "__main__":
    sys.exit(main())
