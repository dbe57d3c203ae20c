"""Makes the tables of causes in docs/refusals.md and their lists in docs/mig_tool.1 of front/causes.py; tests/documents/made.py puts
them there. The word is that of a table there: `STREAM` for the rows, `STREAM.1` for the list of a man page."""
from front import causes

HEADINGS = "number, name, arguments", "meaning", "what can be done"
ESCAPES = ("\\", "\\e"), ("-", "\\-"), ("^", "\\(ha")


def spans(numbers):
    """Numbers in few words: 2 to 4, 7."""
    runs = []
    for number in numbers:
        if runs and number == runs[-1][1] + 1:
            runs[-1][1] = number
        else:
            runs.append([number, number])
    return ", ".join("%d to %d" % (first, last) if last > first + 1 else ", ".join(map(str, range(first, last + 1))) for first, last in runs)


def places(table):
    """A line that says where each cause comes; none where it is the same place for all."""
    numbers = {}
    for cause in table:
        numbers.setdefault(cause.where, []).append(cause.number)
    return "" if "" in numbers else "Places by cause: %s." % "; ".join("%s %s" % (spans(found), where) for where, found in numbers.items())


def markdown(table):
    rows = [("%d `%s`" % (cause.number, " ".join(filter(None, (cause.name, cause.arguments)))), cause.meaning,
             "" if cause.remedy in causes.USUAL else cause.remedy) for cause in table]
    lines = ["| %s |" % " | ".join(cells) for cells in [HEADINGS, ("---",) * len(HEADINGS), *rows]]
    lines[1] = lines[1].replace(" ", "")
    sentence = places(table)
    return "\n".join(["", *lines, "", *([sentence, ""] if sentence else [])]) + "\n"


def escaped(text):
    for letters, escape in ESCAPES:
        text = text.replace(letters, escape)
    return text


def roff(table):
    lines = []
    for cause in table:
        arguments = " \\fI%s\\fR" % cause.arguments if cause.arguments else ""
        lines += [".TP", ".B %d %s%s" % (cause.number, cause.name, arguments), escaped(cause.means)]
    return "\n".join(lines) + "\n"


def made(what):
    name, _, section = what.partition(".")
    table = list(getattr(causes, name).values())
    return roff(table) if section else markdown(table)
