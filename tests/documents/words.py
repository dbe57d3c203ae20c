#!/usr/bin/env python3
"""Counts the words and the sentences of the documents; tests/documents/run compares the counts with the limits below.

usage: tests/documents/words.py [DOCUMENT ...]

Prints a row for each document, and one for all of them:

    words       all words of the file, as `wc -w` counts them
    sentences   how many sentences its prose has: paragraphs and items of lists, without code blocks, headings, comments and tables
    mean        the mean number of words of these sentences
    over 40     how many of them have more than 40 words
    in tables   the same three of the cells of its tables, each of which is prose of its own

Man pages aren't counted. With documents it prints their sentences of more than 40 words instead, as DOCUMENT:LINE: WORDS SENTENCE, where
the line is that of the sentence's first word; `in a table:` stands before one of a cell.

A sentence ends at a full stop, a question mark or an exclamation mark before a space, but for "e.g." and its like, and where its
paragraph, item or cell ends. A name in backquotes counts as the words that it has, and a link as the words of its text.
"""
import pathlib
import re
import sys

TOP = pathlib.Path(__file__).resolve().parents[2]
MOST_WORDS = 60000  # of all documents
MOST_MEAN = 25  # words a sentence, in each document
MOST_IN_SENTENCE = 40  # words
LONG_CELLS = ("docs/proved.md",)  # whose tables may have longer sentences

COMMENT = re.compile(r"<!--.*?-->", re.S)
FENCE = re.compile(r"\s*(?:[-*] +)?(```+|~~~+)")
HEADING = re.compile(r"#+ |=+$|-{3,}$")
ITEM = re.compile(r"( *(?:[-*+]|\d+[.)]) +)")
CELLS_APART = re.compile(r"(?<!\\)\|")
RULE = re.compile(r"\|[\s|:-]*$")
CODE = re.compile(r"(`+)(.+?)\1", re.S)
LINK = re.compile(r"\]\([^)\s]*\)")
END = re.compile(r"""(?<!\be\.g)(?<!\bi\.e)(?<!\bcf)(?<!\bvs)(?<!\.)[.!?]["')\]*]*\s+(?=\S)""")
WORD = re.compile(r"\S*\w\S*")


def documents():
    return [TOP / "README.md", TOP / "CONTRIBUTING.md", TOP / "CHANGELOG.md", *sorted((TOP / "docs").glob("*.md"))]


def pieces(text):
    """The paragraphs, items and cells of a document, each as the number of its first line, its text, and whether it is a cell."""
    text = COMMENT.sub(lambda comment: "\n" * comment[0].count("\n"), text)
    begun, lines, fence, indent, blank, code = 0, [], "", 0, True, False
    for number, line in enumerate([*text.split("\n"), ""], 1):
        fenced, item = FENCE.match(line), ITEM.match(line)
        if fence:
            fence = "" if fenced and fenced[1].startswith(fence) else fence
            continue
        bare = line.strip()
        code = bool(bare) and (blank or code) and not lines and line.startswith(" " * (indent + 4))
        if lines and (not bare or fenced or item or bare.startswith("|") or HEADING.match(line)):
            yield begun, "\n".join(lines), False
            lines = []
        blank = not bare
        if fenced:
            fence = fenced[1]
        elif bare.startswith("|"):
            if not RULE.match(bare):
                yield from ((number, cell.strip(), True) for cell in CELLS_APART.split(bare.strip("|")) if cell.strip())
        elif bare and not code and not HEADING.match(line):
            if item:
                indent = len(item[1])
            elif not lines and not line.startswith(" "):
                indent = 0
            begun = begun if lines else number
            lines.append(line[indent:] if item else bare.lstrip("> "))


def sentences(path):
    """The sentences of a document, each as the number of its first line, its words, and whether it is of a cell."""
    for number, text, is_cell in pieces(path.read_text(encoding="utf-8")):
        text = LINK.sub("]", text)
        masked = CODE.sub(lambda span: "`%s`" % re.sub(r"[^\s]", "x", span[0])[1:-1], text)  # so that no sentence ends in a name
        start = 0
        for end in [*(found.end() for found in END.finditer(masked)), len(text)]:
            words = WORD.findall(text[start:end])
            if words:
                yield number + text.count("\n", 0, start), words, is_cell
            start = end


def counts(lengths):
    """How many sentences there are, the mean of their words, and how many are too long."""
    return len(lengths), sum(lengths) / max(len(lengths), 1), sum(1 for length in lengths if length > MOST_IN_SENTENCE)


def lengths_in(path):
    """The numbers of words of the sentences of a document: of its prose, and of its cells."""
    found = [(len(words), is_cell) for _, words, is_cell in sentences(path)]
    return [length for length, is_cell in found if not is_cell], [length for length, is_cell in found if is_cell]


def words_in(path):
    return len(path.read_bytes().split())


def name_of(path):
    return str(path.relative_to(TOP)) if TOP in path.parents else str(path)


def too_long(path):
    """The sentences of a document that are too long, a line for each."""
    for number, words, is_cell in sentences(path):
        if len(words) > MOST_IN_SENTENCE:
            yield "%s:%d: %s%d %s" % (name_of(path), number, "in a table: " if is_cell else "", len(words), " ".join(words))


def faults():
    """What goes beyond the limits."""
    total = sum(map(words_in, documents()))
    if total > MOST_WORDS:
        yield f"the documents have {total} words, and {MOST_WORDS} are the most"
    for path in documents():
        prose, cells = lengths_in(path)
        name, (_, mean, long_ones), (_, _, long_cells) = name_of(path), counts(prose), counts(cells)
        if mean > MOST_MEAN:
            yield f"{name}: the mean sentence has {mean:.1f} words, and {MOST_MEAN} are the most"
        if name not in LONG_CELLS:
            long_ones += long_cells
        if long_ones:
            yield f"{name}: {long_ones} sentences have more than {MOST_IN_SENTENCE} words; tests/documents/words.py {name} prints them"


def table():
    row = "%-20s %7s %10s %6s %8s   %s"
    yield row % ("document", "words", "sentences", "mean", "over %d" % MOST_IN_SENTENCE, "in tables: the same three")
    all_words, all_prose, all_cells = 0, [], []

    def counted(name, words, prose, cells):
        return row % (name, words, *("%d %.1f %d" % counts(prose)).split(), "%9d %6.1f %8d" % counts(cells))
    for path in documents():
        words, (prose, cells) = words_in(path), lengths_in(path)
        all_words, all_prose, all_cells = all_words + words, all_prose + prose, all_cells + cells
        yield counted(name_of(path), words, prose, cells)
    yield counted("all", all_words, all_prose, all_cells)


def main():
    if any(name.startswith("-") for name in sys.argv[1:]):
        sys.exit(__doc__)
    for name in sys.argv[1:]:
        for line in too_long(pathlib.Path(name).resolve()):
            print(line)
    if not sys.argv[1:]:
        print("\n".join(table()))


if __name__ == "__main__":
    main()
