#!/usr/bin/env python3
"""Parts of the documents that scripts make, each between two lines: one names the script beside this one and what it makes there, as

    <!-- made by tests/documents/rooms.py: rooms -->
    <!-- made up to here -->

and in a man page the same behind `.\\"`. A script answers the text between them by its function `made`, given the word. The files of
completions/ are made as a whole, by completions.py.

usage: tests/documents/made.py [--write]

Prints which parts aren't as made, and exits 1 where there is one; with --write it puts them right. tests/documents/run looks, too.
"""
import importlib
import pathlib
import re
import sys

sys.dont_write_bytecode = True
TOP = pathlib.Path(__file__).resolve().parents[2]
sys.path[:0] = [str(TOP / "tests" / "documents"), str(TOP)]
import completions  # noqa: E402

FRONT, BEHIND = r'^(?:<!-- |\.\\" )', r"(?: -->)?\n"
PART = re.compile(rf"({FRONT}made by tests/documents/(\w+)\.py: (\S+){BEHIND})(.*?)({FRONT}made up to here{BEHIND})", re.M | re.S)


def pages():
    """The documents, in which alone such parts stand."""
    return sorted(path for path in [TOP / "README.md", TOP / "CONTRIBUTING.md", *(TOP / "docs").iterdir()] if path.suffix in (".md", ".1"))


def without_made(text):
    """A text without what is made in it."""
    return PART.sub("", text)


def as_made(text):
    """A text with all its parts as their scripts make them."""
    return PART.sub(lambda part: part[1] + importlib.import_module(part[2]).made(part[3]) + part[5], text)


def others():
    """The documents that have other parts than their scripts make, and the files that aren't as they are made, each with its text as it
    should be."""
    for path in pages():
        text = path.read_text(encoding="utf-8")
        wanted = as_made(text)
        if wanted != text:
            yield path, wanted
    wanted = {TOP / name: text for name, text in completions.files().items()}
    there = [path for path in (TOP / "completions").glob("*/*") if path not in wanted]
    yield from ((path, "") for path in there)        # which nobody makes
    yield from ((path, text) for path, text in wanted.items() if not path.is_file() or path.read_text(encoding="utf-8") != text)


def main():
    if sys.argv[1:] not in ([], ["--write"]):
        sys.exit(__doc__)
    found = list(others())
    for path, wanted in found:
        if sys.argv[1:]:
            path.write_text(wanted, encoding="utf-8")
        else:
            print(f"{path.relative_to(TOP)} isn't as made")
    return int(bool(found) and not sys.argv[1:])


if __name__ == "__main__":
    sys.exit(main())
