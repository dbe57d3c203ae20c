#!/usr/bin/env python3
"""Counts the files that five small changes touch; tests/documents/made.py puts the table into docs/design.md.

usage: tests/documents/changes.py [--files]

A change is told by what it replaces: names or literals. A file counts where it spells one of them, so that it has to be edited
by hand, or looked at. The five are

    a limit           7168, the most descriptors of a GDT, is another number: the files that spell the number
    a cause           BadKey has another name in code, definitions, proofs, documents and tests: the files that spell it
    a record type     X86_TSC_INFO has another name or another row: the files that spell one of its three names
    a command         `walk` has other words or does something else: the files that spell its word or its variant as a command
    a line's wording  `fault: read` reads otherwise: the files that spell the program's line. bin/mig's own lines, which go on
                      with a colon and a reason, are others

Some files are counted apart, as inputs: cases, images and other inputs of the tests that lie at the limit or hold the record or
the command; must-fail edits; and the worked laws of mig_report_laws. These say a number once more so that a mistake in it is
seen. Their names and bytes stay what they are, or follow from the change one by one. Cases name a line by a name of
tests/lines.py, which stays where the wording changes; so does tests/examples/run. Not counted are the shipped program,
CHANGELOG.md and this script, and a file that spells the number or the line for something else (SOMETHING_ELSE). Nor are the parts
of a document that are made. tests/documents/run compares them with what their scripts make, and tests/documents/made.py makes
them anew with `--write`, so nobody has to look.

Prints the table, and with --files the files.
"""
import re
import subprocess
import sys

from made import TOP, without_made

CHANGES = (
    ("a limit: 7168 descriptors of a GDT", r"(?<![\w-])7168\b", 4),
    ("a cause: `BadKey`", r"\bBadKey\b", 14),
    ("a record type: X86_TSC_INFO", r"\bX86_TSC_INFO\b|\bX86TscInfo\b|\bPartCode::Tsc\b|\brow_of Tsc\b|TheVariants\.\{[^}]*\bTsc\b", None),
    ("a command: `walk`", r"`walk[` ]|(?<![\w-])walk (?:VCPU|guest)|['\"]walk['\" ]|\bCommand::Walk\b|\bWalk \{|\bWalk (?:vcpu|id)\b"
                          r"|\bcommands\.Walk\b|TheVariants\.\{[^}]*\bWalk\b", 20),
    ("a line's wording: `fault: read`", r"fault: read(?!:| ?\.\.)", 4),
)
INPUTS = re.compile(r"tests/examples/(?:cases|hosts|hosts\.rows|run$)|tests/edits/|crates/\w+/must-fail/|examples/|tests/hostile/mutations$"
                    r"|tests/second_reader/\w*streams\.py$|tests/(?:first_command|real_xen|operators)/|crates/mig_report_laws/")
LEFT_OUT = re.compile(r"dist/|CHANGELOG\.md$|tests/documents/changes\.py$")
# files that spell it for something else: sizes of memory in KiB; what bin/xl-stream says; the place of a refusal, which has its name
SOMETHING_ELSE = {"7168": ("tests/hostile/memory.py",), "fault: read": ("tests/xl_stream/run",), "`walk": ("tests/lines.py",)}


def tracked():
    """The texts of the tracked files by their paths, without what is made in them."""
    said = subprocess.run(["git", "ls-files", "-z"], cwd=str(TOP), stdout=subprocess.PIPE, check=True).stdout.decode()
    for name in sorted(filter(None, said.split("\0"))):
        path = TOP / name
        if LEFT_OUT.match(name) or path.is_symlink() or not path.is_file():
            continue
        try:
            text = path.read_text(encoding="utf-8")
        except UnicodeDecodeError:
            continue
        yield name, without_made(text)


def found():
    """Of each change the files that it touches, and the inputs apart."""
    rows = [([], []) for _ in CHANGES]
    for name, text in tracked():
        for (_, pattern, _), (files, inputs) in zip(CHANGES, rows):
            if re.search(pattern, text) and not any(it in pattern and name in names for it, names in SOMETHING_ELSE.items()):
                (inputs if INPUTS.match(name) else files).append(name)
    return rows


def made(_):
    lines = ["", "| change | files | aim | inputs |", "|---|---|---|---|"]
    for (change, _, aim), (files, inputs) in zip(CHANGES, found()):
        lines.append("| %s | %d | %s | %d |" % (change, len(files), "at most %d" % aim if aim else "none", len(inputs)))
    return "\n".join([*lines, "", ""])


def main():
    if sys.argv[1:] == ["--files"]:
        for (change, _, _), (files, inputs) in zip(CHANGES, found()):
            print(change)
            for name in files:
                print("    " + name)
            print("  inputs: %d" % len(inputs))
    elif sys.argv[1:]:
        sys.exit(__doc__)
    else:
        print(made("changes"), end="")


if __name__ == "__main__":
    main()
