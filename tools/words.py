#!/usr/bin/env python3
"""Looks whether each word of specs/ has one definition, each lemma is cited, and docs/DEFINITIONS.md says where its words stand.

Usage: tools/words.py. Of the libraries and the programs each word that two files define is named, but for those of SHARED; of all crates
each lemma that no line cites but those that `use` it and those of its file that begin with its name, as its own do. Of the page it reads
the tables: the words of a row stand in the file that the row names, or else, as members do, in specs/ or src/ of the crate that the row,
the text above its table, or the heading names. Ends with 1 where a word has a second definition or does not stand there, or a lemma is
not cited.
"""
import re
import sys
from collections import Counter, defaultdict

from sources import CRATES, ROOT, SUPPORT
from trusted import module_of

# words that mean one thing in both of their files
SHARED = {"ahead_weight"}
PAGE = ROOT / "docs/DEFINITIONS.md"
CODE = re.compile(r"`([^`]+)`")
LEMMA = re.compile(r"( *)(?:(?:abbrev|unfoldable|pub) )+([\w-]+) :(?: |$)")
# what the proofs of functions are named by
GOALS = {"Answers.antt", "Invariants.antt", "Proof.antt", "Send.antt"}


def names():
    """The crates of the product that have specs/: libraries and programs."""
    wanted = (p.name for p in CRATES.iterdir() if p.name == "sj_c" or not SUPPORT.fullmatch(p.name))
    return sorted(name for name in wanted if (CRATES / name / "specs").is_dir())


def doubles():
    """The words with more than one definition, each with its files. What formers/ has is plumbing of the logic."""
    found = defaultdict(list)
    for crate in names():
        for path in sorted((CRATES / crate / "specs").rglob("*.antt")):
            if not {"declared", "formers"} & set(path.parts):
                for word, lines in module_of(path).defined.items():
                    if "pub " in lines[0]:
                        found[word].append(str(path.relative_to(CRATES)))
    return {word: files for word, files in found.items() if len(files) > 1 and word not in SHARED}


def uncited():
    """The lemmas that nothing cites, each with its file. Rows stand for themselves."""
    cited, lemmas = Counter(), []
    for path in sorted(path for end in ("antt", "rt") for path in CRATES.rglob(f"*.{end}") if "out" not in path.parts):
        is_proof = "proofs" in path.parts and "rows" not in path.parts and path.name not in GOALS
        own = set()
        for line in path.read_text().split("\n"):
            code = line.split("--")[0]
            if re.match(r" *(pub |ghost )?use ", code):
                continue
            lemma = LEMMA.match(code) if is_proof else None
            if lemma:
                own.add((lemma[1], lemma[2]))
                lemmas.append((lemma[2], str(path.relative_to(CRATES))))
            head = lemma or re.match(r"( *)([\w-]+)", code)
            cited.update(re.findall(r"[\w-]+", code[head.end() :] if head and head.groups() in own else code))
    return [(name, file) for name, file in lemmas if not cited[name]]


def rows():
    """Each row of a table: its line, the crates and files that it is about, and the words of its first column."""
    heading, crates = [], []
    for number, line in enumerate(PAGE.read_text().split("\n"), 1):
        told = [code for code in CODE.findall(line) if (CRATES / code).is_dir()]
        if line.startswith("#"):
            heading = crates = told or heading
        if not line.startswith("|"):
            crates = told or crates
            continue
        columns = line.split(" | ")
        beside = CODE.findall(columns[1]) if len(columns) > 2 else []
        own = [code for code in beside if (CRATES / code).is_dir()]
        files = [] if len(columns) > 2 and "member" in columns[1] else [code for code in beside if code.endswith(".antt")]
        words = [re.match(r"(?:\w+\.)?([\w-]+)", code) for code in CODE.findall(columns[0]) if not code.endswith(".antt")]
        if crates and words:
            yield number, own or crates, files, [word[1] for word in words if word]


def stands(word, crates, files):
    """Whether one of the files defines the word; where there are none, whether a crate has it."""
    specs = [CRATES / crate / "specs" for crate in crates]
    paths = [path for root in specs for file in files for path in (root / file, root / "inner" / file) if path.is_file()]
    if any(word in module_of(path).defined or word in module_of(path).parts for path in paths):
        return True
    return not paths and any(re.search(rf"\b{re.escape(word)}\b", text) for crate in crates for text in texts(crate))


TEXTS = {}


def texts(crate):
    if crate not in TEXTS:
        roots = (CRATES / crate / "specs", CRATES / crate / "src")
        TEXTS[crate] = [path.read_text() for root in roots for path in root.rglob("*") if path.suffix in (".antt", ".rt")]
    return TEXTS[crate]


def main():
    twice = doubles()
    for word, files in sorted(twice.items()):
        print(f"{word}: {', '.join(files)}")
    alone = uncited()
    for name, file in alone:
        print(f"{name}: nothing cites it, in {file}")
    count, astray = 0, 0
    for number, crates, files, words in rows():
        for word in words:
            count += 1
            if not stands(word, crates, files):
                astray += 1
                print(f"docs/DEFINITIONS.md:{number}: {word} does not stand in {', '.join(files or crates)}")
    print(f"{count} words of docs/DEFINITIONS.md, {astray} astray; {len(twice)} words defined twice; {len(alone)} lemmas uncited")
    return 1 if twice or astray or alone else 0


if __name__ == "__main__":
    sys.exit(main())
