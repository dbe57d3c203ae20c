"""Makes the synopsis of mig(1) of the words that each verb offers (front/verb_NAME.py); tests/documents/made.py puts it there."""
import argparse

from front import main


def escaped(text):
    return text.replace("-", "\\-")


def bold(text):
    return "\\fB%s\\fR" % escaped(text)


def italic(text):
    return "\\fI%s\\fR" % text


def option(action):
    """An option as a page has it, with what follows it."""
    names = "|".join(map(bold, action.option_strings))
    return "[%s]" % (names if action.nargs == 0 else names + " " + italic(action.metavar))


def positional(action):
    many = italic(action.metavar) + " ..." * (action.nargs == "*")
    return "[%s]" % many if action.nargs in ("*", "?") else many


def of_verb(words):
    lines, last = [".B " + escaped(words.prog)], []
    for action in words._actions:
        if not isinstance(action, argparse._HelpAction):
            (lines if action.option_strings else last).append(option(action) if action.option_strings else positional(action))
    return lines + ["[%s]" % italic("IN OUT")] * ("IN OUT" in words.format_usage()) + last


def made(_):
    offered = next(action for action in main.parser(main.verbs())._actions if isinstance(action, argparse._SubParsersAction))
    verbs = [of_verb(words) for words in offered.choices.values()]
    others = [".B mig help", "[%s]" % italic("VERB")], [".B mig \\-\\-version"]
    return "\n.br\n".join("\n".join(lines) for lines in (*verbs, *others)) + "\n"
