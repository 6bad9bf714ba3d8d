#!/usr/bin/env python3
"""Counts what has to be read to trust a contract: the definitions of specs/ that its clauses cite, and those that these cite.
Lemmas that lie in specs/, since a definition holds its proof, are proved and not counted: their statements end in an equation.

Usage: tools/trusted.py [--list] [--check PAGE] [--write PAGE] [FUNCTION..]; `session` and `all` if none is given. `all` is every
public clause of the libraries. Lines are those of the definitions, without blank ones and comments. With --list each file with its
definitions. A page says the numbers in this order, each time as `N definitions, M lines`, and that of `unsafe` blocks as a word;
with --check it ends with 1 where one is another, and with --write it puts the numbers of definitions and lines in.
"""
import re
import sys
from pathlib import Path

from calling import shown
from sources import CRATES, ROOT, Function, Type, libraries

USE = re.compile(r"^(?:pub )?use Rattle\.([\w.-]+?)(?:\.\{(.*)\})?(?: as ([\w-]+))?$")
GHOST_USE = re.compile(r"ghost use Rattle\.([\w.-]+?)(?:\.\{([^}]*)\})?(?: as ([\w-]+))?;")
NUMBERS = ["No", "One", "Two", "Three", "Four", "Five", "Six"]
SAID = re.compile(r"\d+ definitions, [\d,]+ lines")
WORD = re.compile(r"[\w-]+(?:\.[\w-]+)*|◌?[^\s\w(){}\[\].,]+◌?")


class Module:
    """One file of specs/: what it brings in, and its definitions, each with its lines."""

    def __init__(self):
        self.brought, self.named, self.defined, self.parts = {}, {}, {}, {}
        self.opened = []  # what its definitions are given, by lines that open a module

    def bring(self, base, names, alias):
        if names is None:
            self.named[alias or base.split(".")[-1]] = base
            return
        for name in filter(None, (n.strip() for n in names.split(","))):
            own, _, other = name.partition(" as ")
            self.brought[other or own] = (base, own)


def module_of(path):
    module, now, inside = Module(), None, None
    for line in path.read_text().split("\n"):
        text = line.strip()
        if not text or text.startswith("--"):
            continue
        depth = len(line) - len(line.lstrip())
        use = USE.match(line)
        if use:
            module.bring(*use.groups())
            continue
        if re.match(r"(abbrev )?mutual$|module\b", text):
            module.opened.append(text)
            inside = None
            continue
        if inside is not None and depth > inside:
            module.defined[now].append(line)
            part = re.match(r"(?:pub )?([\w-]+) :", text)
            if part:
                module.parts[part[1]] = now
            continue
        inside = None
        head = re.match(r"(?:(?:abbrev|unfoldable|pub) )*(record|data) ([\w-]+)", text)
        sign = re.match(r"((?:(?:abbrev|unfoldable|pub) )*)([\w-]+) :(?: |$)", text)
        if head:
            now, inside = head[2], depth
            module.defined.setdefault(now, []).append(line)
        elif sign and (sign[1] or sign[2] not in module.defined):
            now = sign[2]
            module.defined.setdefault(now, []).append(line)
        else:
            name = re.match(r"[\w-]+", text)
            if name and name[0] in module.defined and "=" in text:
                now = name[0]
            if now:
                module.defined[now].append(line)
    return module


MODULES = {}
for crate in libraries():
    for path in sorted((CRATES / crate / "specs").rglob("*.antt")):
        name = ".".join(path.relative_to(CRATES / crate / "specs").with_suffix("").parts)
        MODULES[f"{crate}.specs.{name}"] = module_of(path)
# what a crate's Lib.antt passes on
PASSED = {}
for crate in libraries():
    for line in (CRATES / crate / "specs/Lib.antt").read_text().split("\n"):
        use = USE.match(line)
        if use:
            PASSED[f"{crate}.specs.{use[3] or use[1].split('.')[-1]}"] = use[1]


def meant(module, word):
    """Of a word as a module has it: the definition as (module, name), or a word of std as (None, path), or None."""
    first, _, rest = word.partition(".")
    if first in module.defined:
        return "own", first
    if first in module.parts:
        return "own", module.parts[first]
    base, name = None, None
    if first in module.brought:
        base, name = module.brought[first]
    elif first in module.named and rest:
        base, name = module.named[first], rest.split(".")[0]
    if base is None:
        return None
    base = PASSED.get(base, base)
    if base in MODULES:
        other = MODULES[base]
        if name in other.defined:
            return base, name
        return (base, other.parts[name]) if name in other.parts else None
    return None, f"{base}.{name}"


def is_lemma(name, lines):
    """Whether a definition is a lemma: what its signature ends in is an equation, or a test that decides one."""
    signature = []
    for line in lines:
        if signature and re.match(rf"\s*{re.escape(name)}\b.*=", line):
            break
        signature.append(line.split("--")[0].strip())
    told = " ".join(signature)
    if re.match(r"(?:(?:abbrev|unfoldable|pub) )*(?:record|data) ", told):
        return False
    end = told.split("→")[-1]
    return "≡" in end or end.strip().startswith("Decides ")


def behind(module, text, at=None):
    for word in WORD.findall(text):
        found = meant(module, word)
        if found:
            yield (at, found[1]) if found[0] == "own" else found


def closure(start):
    seen, left = set(), list(start)
    while left:
        item = left.pop()
        base, name = item
        if item in seen or base is not None and is_lemma(name, MODULES[base].defined[name]):
            continue
        seen.add(item)
        if base is not None:
            for line in MODULES[base].defined[name] + MODULES[base].opened:
                left += behind(MODULES[base], line.split("--")[0], base)
    return seen


def misplaced():
    """The words outside of specs/inner that no public clause cites, but lemmas, and what the logic asks of a type's form."""
    found = closure(cited("all"))
    for base, module in sorted(MODULES.items()):
        if ".specs.inner." not in base and ".specs.formers." not in base:
            for name, lines in module.defined.items():
                if (base, name) not in found and not is_lemma(name, lines):
                    yield f"{base.replace('.specs.', '/specs/')}.antt: {name}"


def cited(wanted):
    """What the public clauses cite, of the functions of that name, or of all."""
    start = set()
    for crate in libraries():
        scopes = {}
        for item in shown(crate):
            if isinstance(item, Type) or (wanted != "all" and item.name != wanted):
                continue
            if item.file not in scopes:
                module = Module()
                for use in GHOST_USE.findall((CRATES / crate / item.file).read_text()):
                    module.bring(use[0], use[1] or None, use[2])
                scopes[item.file] = module
            texts = [c.text for c in item.clauses] if isinstance(item, Function) else [item.text[1]]
            for text in texts:
                start.update(f for f in behind(scopes[item.file], text))
    return start


def count(wanted):
    found = closure(cited(wanted))
    own = sorted(item for item in found if item[0])
    lines = sum(len(MODULES[base].defined[name]) for base, name in own)
    std = {name for base, name in found if base is None and name.startswith("std.")}
    return own, lines, std


def main():
    words = sys.argv[1:]
    listing = "--list" in words
    pages = {word: words[words.index(word) + 1] for word in ("--check", "--write") if word in words}
    names = [w for w in words if not w.startswith("--") and w not in pages.values()] or ["session", "all"]
    told = []
    for wanted in names:
        own, lines, std = count(wanted)
        files = {}
        for base, name in own:
            files.setdefault(base, []).append(name)
        crates = {base.split(".")[0] for base in files}
        print(f"{wanted}: {len(own)} definitions, {lines:,} lines, in {len(files)} files of {len(crates)} crates; {len(std)} words of std")
        if listing:
            for base in sorted(files):
                total = sum(len(MODULES[base].defined[name]) for name in files[base])
                print(f"  {base.replace('.specs.', '/specs/').replace('.', '/')}.antt: {total} lines: {' '.join(files[base])}")
        told.append(f"{len(own)} definitions, {lines:,} lines")
    blocks = [f"crates/{c}/{p.relative_to(CRATES / c)}" for c in libraries() for p in sorted((CRATES / c / "src").rglob("*.rt"))
              for line in p.read_text().split("\n") if re.search(r"\bunsafe \{", line.split("//")[0])]
    print(f"{len(blocks)} unsafe blocks: {', '.join(blocks)}")
    wrong = 0
    for word in misplaced():
        print(f"no public clause cites it, and it is not in specs/inner: {word}")
        wrong = 1
    if "--write" in pages:
        numbers = iter(told)
        page = ROOT / pages["--write"]
        page.write_text(SAID.sub(lambda found: next(numbers, found[0]), page.read_text()))
    if "--check" in pages:
        text = (ROOT / pages["--check"]).read_text()
        unsafe = f"{NUMBERS[len(blocks)]} `unsafe` block{'' if len(blocks) == 1 else 's'}"
        if SAID.findall(text) != told:
            print(f"{pages['--check']} says {SAID.findall(text)}, and not {told}")
            wrong = 1
        if unsafe not in text:
            print(f"{pages['--check']} does not say: {unsafe}")
            wrong = 1
    return wrong


if __name__ == "__main__":
    sys.exit(main())
