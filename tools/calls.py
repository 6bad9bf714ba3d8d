#!/usr/bin/env python3
"""Compares the calls that tools/refusals.sh runs with the public functions of the sources.

Usage: tools/calls.py RUNS, a file with a line 'REQUESTS<TAB>WORDS' for each run that was made. What
each public function is run by, or which tests call it, stands in tools/calls.txt. Tells each function that stands in no line,
each line that names none or a run that was not made so, and each run that no line names; the last
line has the number of functions.

Each library of crates.txt that has a public function is named by a heading, or by the line `left out`.
Public is a `pub fn` of a type that its crate offers, a method of a public trait that has a body, and
a free function that is offered. What a derive writes, and laws, which are functions without
parameters whose body is empty, are not looked at. A function can want memory where its answer is a
Result with a fault that says so.
"""
import re
import sys
from pathlib import Path

TOOLS = Path(__file__).resolve().parent
CRATES = TOOLS.parent / "crates"
FAULTS = "AllocError|AllocFailed|Unread|WriteError|ErrorKind|AccessError|Why|RunFault|SessionFault|PointerError|PatchFault|PatchReadFault|Error"
# what makes the calls
PROGRAMS = ("refusals", "refusals_paths", "refusals_commands")
# calls that are written by operators
OPERATORS = {"eq", "index", "index_mut", "fmt", "drop"}
FUNCTION = re.compile(
    r"^(?P<indent> *)(?P<pub>pub )?(?:final |const )*fn (?P<name>\w+)"
    r"(?P<rest>(?:\[[^\]]*\]|[^;{])*?)(?P<end>;|\{\}|\{)$",
    re.M,
)


def without_clauses(text):
    """The text without comments, clauses and what is for proofs alone."""
    text = re.sub(r"#\[cfg\(test\)\]\nmod \w+ \{\n.*?^\}\n", "", text, flags=re.S | re.M)
    kept = []
    for line in text.split("\n"):
        if not re.match(r" *(//|requires\b|ensures\b|ghost\b|#\[)", line):
            kept.append(line)
        elif re.match(r" *(requires|ensures)\b.*;$", line):
            kept.append(";")
        elif line in ("{}", "{"):
            kept.append(" " + line)
    return "\n".join(kept)


def offered(crate):
    """The names that a crate offers, and the modules that are offered whole."""
    lib = (CRATES / crate / "src/lib.rt").read_text()
    modules = set(re.findall(r"^pub mod (\w+);", lib, re.M))
    texts = [lib] + [(CRATES / crate / f"src/{module}.rt").read_text() for module in modules]
    uses = re.findall(r"^pub use ([^;]+);", "\n".join(texts), re.M)
    return set(re.findall(r"\w+", " ".join(uses))), modules


def behind_parameters(text):
    """What follows the type parameters that an impl may begin with."""
    depth = 0
    for place, letter in enumerate(text):
        if letter == "<":
            depth += 1
        if letter == ">" and text[place - 1] != "-":
            depth -= 1
        if depth == 0:
            return text[place:].lstrip("> ")
    return text


def whose(head):
    """The type of an impl, or 'TRAIT for TYPE', without lifetimes and the type's own parameters."""
    head = behind_parameters(" ".join(head.split()))
    head = re.sub(r"'\w+(, | )?", "", head).replace("<>", "")
    head = head.replace("< ", "<").replace(", >", ">")
    trait, between, of = head.rpartition(" for ")
    return trait + between + re.sub(r"^&?([\w:]+).*", r"\1", of.strip())


def can_want(signature):
    answer = signature.rpartition("->")[2]
    return "io::Result<" in answer or "Result<" in answer and re.search(rf"\b({FAULTS})\b", answer.partition("Result<")[2])


def functions_of(crate):
    """The public functions of a crate, as (whose, name), with whether each can want memory."""
    names, modules = offered(crate)
    found = {}
    src = CRATES / crate / "src"
    files = [f for f in sorted(src.rglob("*.rt")) if "tests" not in str(f.relative_to(src))]
    texts = {f: without_clauses(f.read_text()) for f in files}
    every = "\n".join(texts.values())
    hidden = set(re.findall(r"^(?:pub\(\w+\) )?trait (\w+)", every, re.M))
    types = re.findall(r"^(?:pub(?:\(\w+\))? )?(?:struct|enum) (\w+)", every, re.M)
    for file, text in texts.items():
        top = file.relative_to(CRATES / crate / "src").parts[0].removesuffix(".rt")
        for item in re.split(r"\n(?=(?:pub\b|impl\b|trait\b|fn\b|const\b))", text):
            head = re.match(r"(pub )?(impl|trait)\b([^{]*)\{", item)
            own, given = (top if top in modules else ""), top in modules
            if head and head[2] == "trait":
                own = "trait " + re.match(r" (\w+)", head[3])[1]
                given = head[1] and (given or own[6:] in names)
            elif head:
                own = whose(head[3])
                base = own.rpartition(" for ")[2]
                given = base not in types or base in names or given
                given = given and re.match(r"\w*", own)[0] not in hidden
            for part in FUNCTION.finditer(item):
                name, rest = part["name"], part["rest"]
                if not head:
                    given = part["pub"] and part["indent"] == "" and (top in modules or name in names)
                elif head[2] == "trait" and part["end"] == ";":
                    continue
                elif head[2] == "impl" and " for " not in own and not part["pub"]:
                    continue
                is_law = part["end"] == "{}" and rest.split("(")[1][0] == ")"
                if given and not is_law:
                    found[(own, name)] = bool(can_want(rest))
    return found


def libraries():
    """The crates of crates.txt that are libraries, and of those the ones that the list leaves out."""
    lines = (CRATES.parent / "crates.txt").read_text().split("\n")
    names = [line.partition(":")[0].split()[0] for line in lines if line.strip() and not line.startswith("#")]
    names = [name for name in names if (CRATES / name / "src/lib.rt").is_file()]
    words = re.findall(r"^left out: (.*)$", (TOOLS / "calls.txt").read_text(), re.M)
    return names, [name for name in " ".join(words).split() if name in names]


def listed():
    """The lines of the list: a crate, whose calls, their names, and how each is run."""
    lines, headings = [], []
    for line in (TOOLS / "calls.txt").read_text().split("\n"):
        if not line.strip() or line.startswith(("#", "left out: ")):
            continue
        if not line.startswith(" "):
            head, _, names = line.partition(": ")
            crate, _, owners = head.partition(" ")
            headings = [(crate, own, names.split()) for own in owners.split(" | ")]
        else:
            how, _, runs = line.strip().partition(" ")
            runs = [run.strip() for run in runs.split(",")]
            lines += [(*heading, how, runs) for heading in headings]
    return lines


def is_called(name, test):
    """Whether a file of tests calls what has the name, as far as that is read in its text."""
    file = CRATES.parent / test
    return file.is_file() and (name in OPERATORS or re.search(rf"\b{name}\(", file.read_text()))


def faults(requests):
    """What is wrong, line by line, how many functions there are, and how many are called inside of other calls alone."""
    names, left_out = libraries()
    crates = sorted({line[0] for line in listed()} | set(names) - set(left_out))
    sources = {(c, *key): can for c in crates for key, can in functions_of(c).items()}
    program = "\n".join(f.read_text() for name in PROGRAMS for f in (CRATES / name / "src").glob("*.rt"))
    hows, named, wrong = {}, set(), []
    for crate, own, names, how, runs in listed():
        for name in names:
            key = (crate, own, name)
            hows.setdefault(key, set()).add(how)
            if key not in sources:
                wrong.append(f"no such public function: {crate} {own} {name}")
            if how == "tested":
                wrong += [f"not called in {test}: {crate} {own} {name}" for test in runs if not is_called(name, test)]
                continue
            if how != "within" and name not in OPERATORS and not re.search(rf"\b{name}\b", program):
                wrong.append(f"in neither program of refusals: {crate} {own} {name}")
            for run in (run.replace("$", name) for run in runs):
                named.add(run)
                asked = requests.get(run)
                fits = {"asks": asked != 0, "free": asked == 0, "never": asked == 0}.get(how, True)
                if asked is None or not fits:
                    wrong.append(f"not run so: {crate} {own} {name}: {how} {run}")
    for key, can in sources.items():
        ways = hows.get(key, set())
        if not ways:
            wrong.append(f"in no line: {' '.join(key)}")
        elif can and not ways & {"asks", "never", "within"}:
            wrong.append(f"can want memory, and is not run so: {' '.join(key)}")
        elif not can and ways & {"asks", "never"}:
            wrong.append(f"can not want memory: {' '.join(key)}")
    wrong += [f"a run of no call: {run}" for run in requests if run not in named]
    return wrong, len(sources), sum(hows.get(key) == {"within"} for key in sources)


def main():
    requests = {}
    for line in Path(sys.argv[1]).read_text().splitlines():
        count, _, words = line.partition("\t")
        requests[words] = int(count) if count.isdigit() else None
    wrong, count, within = faults(requests)
    for line in wrong:
        print(line)
    print(f"left out: the crates {' '.join(libraries()[1])}; {within} functions are only called inside of other calls")
    print(f"{count} public functions, {len(wrong)} faults")
    return 1 if wrong else 0


if __name__ == "__main__":
    sys.exit(main())
