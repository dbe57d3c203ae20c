"""`mig check`: files, folders and standard input, one line each, and a count at the end."""
import os
import sys

from front import errors, forms, many, program, resolve, sources, verdict
from front.files import chosen
from front.sharing import MOST_OF_CHECK, MOST_OF_COMPARISON, Memory
from front.text import put_lines
from front.words import CHOICE, INPUT, at_once, in_json, takes_files, verb

TYPE_CHECKING = False                                # a checker of types takes it for true; typing itself is slow to load
if TYPE_CHECKING:
    from typing import Any, Dict, Iterator, Set

    from front.many import Judge

FOLDERS = 'Files and folders, with all files below, and `-` for standard input.'
COUNTED = verdict.OK, verdict.REFUSED, verdict.NO_SAVE, verdict.NOT_JUDGED, verdict.FAULT


class Checks:
    """What is said of each file. mig_check judges it, which keeps no pages. With --compare mig_tool reads it once more where it has
    frames that were sent again to be compared, and at once where it can't be read twice; it keeps pages where it can't read by place."""

    def __init__(self, words: 'Any') -> None:
        self.path, self.memory = program.find(resolve.CHECK), Memory(words.jobs)
        self.tool = program.find(resolve.TOOL) if words.compare else None  # type: Any
        self.kind = sources.Whole if words.whole else sources.Plain

    def judged(self, name: str) -> verdict.Verdict:
        return verdict.of_file(name, self.said, self.kind)

    def said(self, name: str, source: 'Any') -> verdict.Verdict:
        if self.tool and not source.is_walkable and forms.form_of(source).kind == forms.STREAM:
            return self.compared(name, source)
        with self.memory.taken(MOST_OF_CHECK):
            found = verdict.judged(name, self.path, source)
        return self.compared(name, source) if self.tool and found.is_uncompared() else found

    def compared(self, name: str, source: 'Any') -> verdict.Verdict:
        if source.is_by_place:
            with self.memory.taken(MOST_OF_COMPARISON):
                return verdict.compared(name, self.tool, source)
        return self.memory.given(name, lambda: verdict.compared(name, self.tool, source), source.is_walkable)


def stamped(judged: 'Judge') -> 'Judge':
    """A function that judges a file, and notes by what it is known again: as it was before."""
    from front.seen import stamp_of

    def judge(name: str) -> verdict.Verdict:
        stamp = stamp_of(name)
        return judged(name)._replace(stamp=stamp)
    return judge


def refuse_words(words: 'Any') -> None:
    """Some words go with others alone."""
    if (words.host or words.skip_seen) and not words.json:
        raise errors.Refused(errors.USAGE, '--host and --skip-seen go with --json')
    if words.skip_seen and words.quiet:
        raise errors.Refused(errors.USAGE, "--skip-seen and -q don't go together: what isn't told is not seen")


def unseen(words: 'Any', statuses: 'Set[int]') -> 'Iterator[str]':
    """The chosen files, without those that were seen; of these the status counts, too."""
    names = chosen(words)
    if not words.skip_seen:
        return names
    from front import seen
    before = seen.Seen(words.skip_seen, os.uname().nodename if words.host else '')
    if seen.is_standard_output(words.skip_seen) and not seen.ends_in_a_line(words.skip_seen):
        put_lines([''], sys.stdout)                  # behind a line that was cut
    return before.left(names, statuses)


def check(words: 'Any') -> int:
    refuse_words(words)
    host = {'host': os.uname().nodename} if words.host else {}
    counts, statuses, checks = dict.fromkeys(COUNTED, 0), set(), Checks(words)  # type: Dict[str, int], Set[int], Checks
    judge = stamped(checks.judged) if words.skip_seen else checks.judged
    for found in many.verdicts(unseen(words, statuses), words.jobs, judge):
        counts[found.result] += 1
        statuses.add(found.status)
        if words.quiet and found.status == errors.OK:
            continue
        if words.json:
            verdict.put_facts({**found.facts(), **host})
        else:
            put_lines(found.lines(), sys.stdout)
    if not words.json:
        put_lines([many.count_of(counts)], sys.stdout)
    return many.status_of(statuses)


def offer(verbs: 'Any') -> None:
    words = verb(verbs, 'check', 'say of each file whether it is a whole, well formed save', check, '\n'.join((FOLDERS, INPUT, '', CHOICE)))
    takes_files(words)
    at_once(words)
    in_json(words, 'print one JSON object for each file, and no count')
    words.add_argument('-q', dest='quiet', action='store_true', help='print nothing of what was accepted but the count')
    words.add_argument('--read', dest='whole', action='store_true',
                       help="read every byte of each file, also those that nothing depends on, so that a disk that can't give them is noticed")
    words.add_argument('--compare', action='store_true',
                       help='compare the frames that were sent again to be compared (VERIFY); '
                            'of what is packed or piped that takes memory for the pages')
    words.add_argument('--host', action='store_true', help='with --json: put the name of this host in each object')
    words.add_argument('--skip-seen', metavar='FILE',
                       help='with --json: pass over what FILE, of earlier such lines, tells of and is unchanged; FILE need not be there')
