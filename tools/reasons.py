#!/usr/bin/env python3
"""Looks whether what the sources give as their reason is there: `Why so: docs/PAGE.md, ".."` names a bullet of that page.

Usage: tools/reasons.py, over the .rt and .antt files of crates/, without what `rt` makes (out/). Between the quotes stands what the bullet's
bold statement begins with, word for word. Ends with 1 where no bullet begins so, and where a `Why so` has another form.
"""
import re
import sys
from pathlib import Path

ROOT = Path(__file__).resolve().parent.parent
REASON = re.compile(r'\s*(?://|--) Why so: (docs/\w+\.md), "(.+)"\.')


def statements(page):
    """The bold statements that the page's bullets begin with; none where there is no such page."""
    path = ROOT / page
    return re.findall(r"^ *- \*\*(.+?)\*\*", path.read_text(), re.M) if path.is_file() else []


def main():
    files = sorted(p for end in ("rt", "antt") for p in (ROOT / "crates").rglob(f"*.{end}") if "out" not in p.relative_to(ROOT).parts)
    count, wrong, pages = 0, [], {}
    for file in files:
        for number, line in enumerate(file.read_text().split("\n"), 1):
            if "Why so" not in line:
                continue
            count += 1
            place, reason = f"{file.relative_to(ROOT)}:{number}", REASON.fullmatch(line)
            if not reason:
                wrong.append(f'{place}: not of the form: Why so: docs/PAGE.md, "..".')
                continue
            page, start = reason.groups()
            if page not in pages:
                pages[page] = statements(page)
            if not any(statement.startswith(start) for statement in pages[page]):
                wrong.append(f"{place}: {page} has no bullet that begins so: {start}")
    for line in wrong:
        print(line)
    print(f"{count} reasons, {len(wrong)} without a bullet")
    return 1 if wrong else 0


if __name__ == "__main__":
    sys.exit(main())
