#!/usr/bin/env python3
"""Lists each wrong edit that does not fit the sources: whose old text does not stand exactly once, or whose new text is the old.

usage: python3 tools/edits.py [FOLDER ..]     at the top of the repository

Without folders it reads crates/*/must-fail and tests/mutations/*. A folder that is not a crate's must-fail has the crate's name.
Its last line counts the edits; it ends with status 1 if one does not fit. Nothing is proved: tests/mutate and rt ci do that.
"""
import glob
import os
import sys


def crate_of(folder):
    parts = os.path.normpath(folder).split(os.sep)
    return parts[-2] if parts[-1] == "must-fail" else parts[-1]


def parsed(path):
    """The file that the edit is of and its pairs of texts, or a ValueError that says what is wrong with the lines."""
    file, pairs, old = None, [], None
    with open(path, encoding="utf-8", newline="") as f:
        lines = f.read().split("\n")
    for line in lines:
        if not line.strip() or line.startswith("#"):
            continue
        word, colon, text = line.partition(": ")
        if word == "file" and colon and file is None:
            file = text.strip()
        elif word == "old" and colon and old is None:
            old = text
        elif word == "new" and (colon or line == "new:") and old is not None:
            pairs.append((old, text))
            old = None
        else:
            raise ValueError(f"a line that has no place there: {line}")
    if file is None or not pairs or old is not None:
        raise ValueError("not a line 'file:' and then pairs of 'old:' and 'new:'")
    return file, pairs


def faults(path, crate):
    """What is wrong with the edit, one text for each fault."""
    try:
        file, pairs = parsed(path)
    except ValueError as fault:
        return [str(fault)]
    source = os.path.join("crates", crate, file)
    if not os.path.isfile(source):
        return [f"no file {source}"]
    with open(source, encoding="utf-8", newline="") as f:
        text = before = f.read()
    said = []
    for old, new in pairs:
        n = text.count(old)
        if n != 1:
            said.append(f"stands {n} times in {source}: {old}")
        elif old == new:
            said.append(f"the new text is the old: {old}")
        else:
            text = text.replace(old, new)
    if not said and text == before:
        said.append(f"its pairs leave {source} as it was")
    return said


def main():
    folders = sys.argv[1:] or sorted(glob.glob("crates/*/must-fail")) + sorted(glob.glob("tests/mutations/*"))
    edits, unfit = 0, 0
    for folder in folders:
        for path in sorted(glob.glob(os.path.join(folder, "*.edit"))):
            edits += 1
            said = faults(path, crate_of(folder))
            unfit += bool(said)
            for fault in said:
                print(f"{path}: {fault}")
    print(f"{edits} edits, {unfit} that do not fit")
    return 1 if unfit else 0


if __name__ == "__main__":
    sys.exit(main())
