"""Makes the rooms of docs/design.md, a picture and a table, from crates.txt and the first lines of each crate;
tests/documents/made.py puts them there."""
import pathlib
import re
import textwrap

TOP = pathlib.Path(__file__).resolve().parents[2]
PICTURE_WIDTH = 120
ASIDE = re.compile(r" \([^()]*\)")
LEAST_WORDS = 6  # of a duty that ends before its first colon


def rooms_below():
    """On which rooms each room stands, by crates.txt."""
    below = {}
    for line in (TOP / "crates.txt").read_text(encoding="utf-8").splitlines():
        name, colon, names = line.partition("#")[0].partition(":")
        if colon:
            below[name.strip()] = names.split()
    return {name: [it for it in names if it in below] for name, names in below.items()}


def source_of(room):
    library = TOP / "crates" / room / "src" / "lib.rt"
    return (library if library.exists() else library.with_name("main.rt")).read_text(encoding="utf-8")


def duty_of(room):
    """The first paragraph of what a crate says of itself, without what is in brackets, nor behind a colon that follows words
    enough."""
    lines = []
    for line in source_of(room).splitlines():
        if not line.startswith("//! "):
            break
        lines.append(line[len("//! "):])
    duty = ASIDE.sub("", " ".join(lines).rstrip("."))
    front = duty.partition(": ")[0]
    return front if len(front.split()) >= LEAST_WORDS else duty


def all_below(room, below):
    return set(below[room]).union(*(all_below(it, below) for it in below[room]))


def height_of(room, below):
    return 1 + max((height_of(it, below) for it in below[room]), default=-1)


def picture(below):
    """The rooms by how many stand below them one on another at most, the highest first."""
    rows = {}
    for room in sorted(below):
        rows.setdefault(height_of(room, below), []).append(room)
    for height in sorted(rows, reverse=True):
        label = f"    {height:2}  "
        yield from textwrap.wrap("  ".join(rows[height]), PICTURE_WIDTH, initial_indent=label, subsequent_indent=" " * len(label),
                                 break_on_hyphens=False)


def made(_):
    below = rooms_below()
    lines = ["", *picture(below), "", "| room | answers for |", "|---|---|"]
    for room in sorted(below, key=lambda it: (height_of(it, below), it)):
        lines.append(f"| {room} | {duty_of(room)} |")
    return "\n".join([*lines, "", ""])
