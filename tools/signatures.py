#!/usr/bin/env python3
"""Looks whether the header, the Rust crate and the Python module declare the calls that crates/sj_c exports.

Usage: tools/signatures.py [FOLDER]; FOLDER has the bindings, and is bindings/ if none is given. Compared are, of each export, its name,
its parameters in order and its result; of the structs that cross, their fields; of the statuses, their numbers. Tells each
difference, and ends with 1 where there was one.
"""
import ast
import re
import sys
from pathlib import Path

ROOT = Path(__file__).resolve().parent.parent
SOURCES = ROOT / "crates/sj_c/src"
BUFFERS = ROOT / "crates/sj_tape/src/reader/buffers.rt"

# an export's type: what stands for it in C, in Rust and in Python
CROSSES = {
    "Global": [],
    "bool": [("bool", "bool", "_BOOL")],
    "u32": [("uint32_t", "u32", "_U32")],
    "u64": [("uint64_t", "u64", "_U64")],
    "i64": [("int64_t", "i64", "_I64")],
    "usize": [("size_t", "usize", "_SIZE")],
    "*const u8": [("const uint8_t *", "*const u8", "_PLACE")],
    "&mut Doc": [("sj_doc *", "*mut Doc", "_DOC")],
    "&mut Text": [("sj_text *", "*mut Text", "_TEXT")],
    "&mut Buffers": [("sj_buffers *", "*mut Buffers", "_BUFFERS")],
    "&mut Found": [("sj_value *", "*mut Found", "_FOUND")],
    "&mut bool": [("bool *", "*mut bool", "_BOOL_OUT")],
    "&mut usize": [("size_t *", "*mut usize", "_SIZE_OUT")],
    "&mut *const u8": [("const uint8_t * *", "*mut *const u8", "_PLACE_OUT")],
    "&[u8]": [("const uint8_t *", "*const u8", "_READ"), ("size_t", "usize", "_SIZE")],
    "&mut [u8]": [("uint8_t *", "*mut u8", "_WRITTEN"), ("size_t", "usize", "_SIZE")],
    "&mut [Found]": [("sj_value *", "*mut Found", "_FOUND"), ("size_t", "usize", "_SIZE")],
    "&mut [Member]": [("sj_member *", "*mut Member", "_MEMBER"), ("size_t", "usize", "_SIZE")],
    "Found": [("sj_value", "Found", "_Found")],
}
C, RUST, PYTHON = range(3)
STRUCTS = {"Found": ("sj_value", "_Found"), "Member": ("sj_member", "_Member"), "Buffers": ("sj_buffers", "Buffers")}
CTYPES = {"c_uint32": "_U32", "c_bool": "_BOOL", "c_int64": "_I64", "c_uint64": "_U64", "c_size_t": "_SIZE", "c_void_p": "_PLACE"}


def bare(text):
    return " ".join(text.split())


def types_of(parameters):
    """The types of Rust's parameters, without their names."""
    return [bare(part.split(":", 1)[1]) for part in parameters.split(",") if ":" in part]


def crossed(types, language):
    return [piece[language] for kind in types for piece in CROSSES[kind]]


def exports():
    """Each export: its parameters' types, and its result or None."""
    found = {}
    for path in sorted(SOURCES.rglob("*.rt")):
        for name, parameters, result in re.findall(r'pub extern "C" fn (\w+)\(([^)]*)\)(?: -> (\w+))?', path.read_text()):
            found[name] = (types_of(parameters), result or None)
    return found


def structs():
    """The fields' types of each struct that crosses."""
    text = "\n".join(path.read_text() for path in [*sorted(SOURCES.rglob("*.rt")), BUFFERS])
    bodies = {name: re.search(rf"pub struct {name} \{{\n(.*?)\n\}}", text, re.S)[1] for name in STRUCTS}
    return {name: [bare(kind) for kind in re.findall(r"^    pub(?:\(crate\))? \w+: (.*),$", body, re.M)] for name, body in bodies.items()}


def in_header(text):
    """The calls, structs and statuses of a C header."""
    text = re.sub(r"/\*.*?\*/", "", text, flags=re.S)

    def kind_of(declared):
        return bare(re.sub(r"\w+$", "", declared.strip()).replace("*", " * ")) if declared.strip() != "void" else None

    calls = {}
    for result, name, parameters in re.findall(r"^(\w+) (sj_\w+)\(([^)]*)\);", text, re.M):
        kinds = [kind_of(part) for part in parameters.split(",")]
        calls[name] = (kinds, {"sj_status": "uint32_t", "void": None}.get(result, result))
    bodies = dict((name, body) for body, name in re.findall(r"typedef struct \w+ \{(.*?)\} (\w+);", text, re.S))
    fields = {name: [kind_of(part) for part in body.split(";") if part.strip()] for name, body in bodies.items()}
    statuses = {name: int(number) for name, number in re.findall(r"SJ_(\w+) = (\d+)", text)}
    return calls, fields, statuses


def in_rust(text):
    calls = {}
    for name, parameters, result in re.findall(r"pub fn (\w+)\(([^)]*)\)(?: -> (\w+))?;", text):
        calls[name] = (types_of(parameters), result or None)
    bodies = dict(re.findall(r"pub struct (\w+) \{\n(.*?)\n\}", text, re.S))
    return calls, {name: [bare(kind) for kind in re.findall(r"pub \w+: (.*),$", body, re.M)] for name, body in bodies.items()}


def in_python(text):
    calls, fields = {}, {}
    for node in ast.walk(ast.parse(text)):
        if isinstance(node, ast.AnnAssign) and getattr(node.target, "id", "") == "_CALLS":
            for key, value in zip(node.value.keys, node.value.values):
                names = [getattr(part, "id", None) for part in value.elts]
                calls[key.value] = (names[1:], names[0])
        if isinstance(node, ast.ClassDef):
            for line in node.body:
                if isinstance(line, ast.Assign) and line.targets[0].id == "_fields_":
                    kinds = [pair.elts[1] for pair in line.value.elts]
                    fields[node.name] = [CTYPES[kind.attr] if isinstance(kind, ast.Attribute) else kind.id for kind in kinds]
    return calls, fields


def compare(where, wanted, got, wrong):
    for name in sorted({*wanted, *got}):
        if name not in got:
            wrong.append(f"{where}: no {name}")
        elif name not in wanted:
            wrong.append(f"{where}: {name} is no export")
        elif wanted[name] != got[name]:
            wrong.append(f"{where}: {name} is {got[name]}, and has to be {wanted[name]}")


def main():
    folder = Path(sys.argv[1]) if len(sys.argv) > 1 else ROOT / "bindings"
    calls, fields, wrong = exports(), structs(), []
    header, header_fields, statuses = in_header((folder / "c/sj.h").read_text())
    rust, rust_fields = in_rust((folder / "rust/src/raw/sys.rs").read_text())
    python, python_fields = in_python((folder / "python/paizkorde.py").read_text())

    def as_in(language):
        return {name: (crossed(kinds, language), CROSSES[result][0][language] if result else None) for name, (kinds, result) in calls.items()}

    compare("sj.h", as_in(C), header, wrong)
    compare("sys.rs", {n: c for n, c in as_in(RUST).items() if n in rust or n != "sj_text_copy"}, rust, wrong)
    compare("paizkorde.py", as_in(PYTHON), python, wrong)
    for name, (in_c, in_py) in STRUCTS.items():
        compare("sj.h", {in_c: crossed(fields[name], C)}, {in_c: header_fields.get(in_c)}, wrong)
        compare("sys.rs", {name: crossed(fields[name], RUST)}, {name: rust_fields.get(name)}, wrong)
        compare("paizkorde.py", {in_py: crossed(fields[name], PYTHON)}, {in_py: python_fields.get(in_py)}, wrong)
    sources = "".join((SOURCES / file).read_text() for file in ("status.rt", "faults.rt"))
    numbers = {name: int(number) for name, number in re.findall(r"pub const (\w+): u32 = (\d+);", sources)}
    compare("sj.h", numbers, {name: number for name, number in statuses.items() if name in numbers}, wrong)
    for line in wrong:
        print(line)
    print(f"{len(calls)} exports, {len(numbers)} statuses, {len(wrong)} differences")
    return 1 if wrong else 0


if __name__ == "__main__":
    sys.exit(main())
