"""Makes the lines of docs/proved.md that count the edits which the prover has to refuse; tests/documents/made.py puts them there."""
import pathlib

TOP = pathlib.Path(__file__).resolve().parents[2]


def edits_in(pattern):
    """How many edits each crate has, whose paths fit a pattern."""
    counts = {}
    for path in TOP.glob(pattern):
        crate = path.parent.parent.name if path.parent.name == "must-fail" else path.parent.name
        counts[crate] = counts.get(crate, 0) + 1
    return counts


def named(crates):
    """Names of crates in a sentence."""
    names = sorted(crates)
    return " and ".join(filter(None, (", ".join(names[:-1]), names[-1]))) if names else "none"


def made(_):
    often, others = edits_in("crates/*/must-fail/*.edit"), edits_in("tests/edits/*/*.edit")
    crates = {path.name for path in (TOP / "crates").iterdir() if (path / "src").is_dir()}
    without = crates - set(often) - set(others)
    return (f"`rt ci` tries the edits under crates/NAME/must-fail: {sum(often.values())} in {len(often)} crates.\n"
            f"tests/edits has {sum(others.values())} more, in {len(others)} crates: all but {named(crates - set(others))}.\n"
            f"There is no edit at all of {named(without)}.\n")
