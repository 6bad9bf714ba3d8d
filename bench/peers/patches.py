#!/usr/bin/python3
"""Times Debian's jsonpatch on the document and the patches of crates/bench_patches: a line each with the least of some rounds, in us."""
import copy
import json
import re
import time
from pathlib import Path

import jsonpatch

SOURCE = Path(__file__).resolve().parents[2] / "crates/bench_patches/src/documents.rt"
NOTE = "a text of some length, as it stands in records of a log or of a list of things, with no word that counts"


def patch_of(name):
    return jsonpatch.JsonPatch(json.loads(re.search(rf'{name}: &str =\s*r#"(.*?)"#;', SOURCE.read_text())[1]))


def record(number):
    place = {"x": number, "y": -3}
    tags = ["first", "second"]
    return {"id": number, "name": f"record {number}", "tags": tags, "place": place, "note": NOTE, "is_open": True, "owner": None}


def tell(what, rounds, call):
    least = float("inf")
    for _ in range(rounds):
        start = time.perf_counter()
        call()
        least = min(least, time.perf_counter() - start)
    print(f"{what}: {least * 1e6:.1f} us")


def main():
    document = {"records": [record(number) for number in range(4000)], "size": 4000}
    there, back = patch_of("THERE"), patch_of("BACK")
    same, changed = copy.deepcopy(document), there.apply(document)

    def in_place():
        there.apply(document, in_place=True)
        back.apply(document, in_place=True)

    tell("patch", 30, in_place)
    tell("patch of a copy", 5, lambda: there.apply(document))
    tell("diff", 10, lambda: jsonpatch.make_patch(document, changed))
    tell("same", 10, lambda: document == same)


if __name__ == "__main__":
    main()
