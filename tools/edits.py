#!/usr/bin/env python3
"""Looks at the edits that the check has to refuse, crates/NAME/must-fail/*.edit: that each still applies, and says what refuses it.

Usage: tools/edits.py [FOLDER], the folder of crates; none: crates/ beside tools/. An edit applies where each text behind 'old: ' stands
exactly once in the file that the last 'file: ' line names, after the pairs above it were put in. Its first line begins with 'refused by: '.
No two edits of a crate make the same change. The last line is 'N passed, M failed'.
"""

import pathlib
import sys


def edited(text, crate):
    """The files that the edit changes, with what it makes of them; a ValueError says why there are none."""
    lines = text.split('\n')
    if not lines[0].startswith('refused by: ') or not lines[0][len('refused by: '):].strip():
        raise ValueError("the first line is no 'refused by: ..'")
    path, old, files = None, None, {}
    for line in lines[1:]:
        word, _, rest = line.partition(':')
        rest = rest.removeprefix(' ')
        if not line.strip():
            continue
        if word == 'file':
            path = rest.strip()
            if not path.startswith(('src/', 'specs/', 'proofs/')) or not (crate / path).is_file():
                raise ValueError(f'there is no file {path}')
            files.setdefault(path, (crate / path).read_text(encoding='utf-8'))
        elif word == 'old':
            old = rest
            if path is None or not old:
                raise ValueError("an 'old:' line without a file or a text")
        elif word == 'new':
            if old is None:
                raise ValueError("a 'new:' line without an 'old:' line")
            found = files[path].count(old)
            if found != 1:
                raise ValueError(f"stands {found} times in {path}, and not once: {old}")
            files[path], old = files[path].replace(old, rest), None
        else:
            raise ValueError(f'a line that is not read: {line}')
    if old is not None:
        raise ValueError("an 'old:' line without a 'new:' line")
    changed = {path: made for path, made in files.items() if made != (crate / path).read_text(encoding='utf-8')}
    if not changed:
        raise ValueError('it changes nothing')
    return changed


def main():
    folder = pathlib.Path(sys.argv[1]) if len(sys.argv) > 1 else pathlib.Path(__file__).resolve().parent.parent / 'crates'
    passed = failed = 0
    for crate in sorted(folder.glob('*/must-fail')):
        seen = {}
        for file in sorted(crate.iterdir()):
            try:
                if file.suffix != '.edit':
                    raise ValueError('it is no .edit file')
                made = tuple(sorted(edited(file.read_text(encoding='utf-8'), crate.parent).items()))
                if made in seen:
                    raise ValueError(f'it makes the change of {seen[made]}')
                seen[made] = file.name
                passed += 1
            except ValueError as why:
                failed += 1
                print(f'{file.relative_to(folder)}: {why}'[:300])
    print(f'{passed} passed, {failed} failed')
    return 1 if failed or not passed else 0


if __name__ == '__main__':
    sys.exit(main())
