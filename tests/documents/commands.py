"""Makes the table of the program's commands in docs/design.md of build/words.py; tests/documents/made.py puts it there."""
from build.words import COMMANDS


def table():
    lines = ["", "| command | done by |", "|---|---|"]
    for command, _, _, done_by in COMMANDS:
        lines.append(f"| `{command}` | {done_by} |")
    return "\n".join([*lines, "", ""])


def made(_):
    return table()
