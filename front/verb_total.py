"""`mig total`: what many runs of `mig check --json` told, on one host or on many, in all."""
import os
import sys

from front import errors, files, many, sources, verdict
from front.seen import host_of, name_of, objects
from front.text import put_lines, shown, tell
from front.words import in_json, verb

TYPE_CHECKING = False                                # a checker of types takes it for true; typing itself is slow to load
if TYPE_CHECKING:
    from typing import Any, Dict, Iterable, Iterator, List, Sequence, Tuple

    Latest = Dict[Tuple[str, str], Dict[str, Any]]   # by host and name

TOTAL = """\
FILE has lines of `mig check --json`, or of `mig info --json`; without one they come from standard input. Of a file that is told
several times, on one host, the last line counts. Printed are the files that weren't accepted, each behind its host where that is
told (`mig check --json --host`), and a count. A line that isn't whole, as where a host died while it wrote, is told on standard error.

With --of the files that LIST names, a line each, or with -0 each with a NUL behind it, are looked for: one of which no line tells is
printed, and counted as missing. With --left these are all that is printed, with those that couldn't be read or judged, as a list for
the next run:

  mig total --left --of list verdicts > left

Of several files the greatest status counts."""
MISSING = 'missing'
COUNTED = (verdict.OK, 'told', verdict.REFUSED, verdict.NO_SAVE, verdict.NOT_JUDGED, 'not told', verdict.FAULT, MISSING)


def latest(names: 'Sequence[str]') -> 'Tuple[Latest, bool]':
    """The last object of each file on each host, in the order in which the files came first; and whether all lines were whole."""
    found, whole = {}, True  # type: Latest, bool
    for name in names:
        for number, facts in objects(name):
            if facts:
                found[host_of(facts), name_of(facts)] = facts
            else:
                tell('%s: line %d is no whole object' % (shown(name), number))
                whole = False
    return found, whole


def lines_of(facts: 'Dict[str, Any]') -> 'Iterator[str]':
    """What is printed of a file that wasn't accepted."""
    host = shown(host_of(facts)) + ': ' if host_of(facts) else ''
    form = [shown(facts['form'])] if 'form' in facts else []
    yield host + ': '.join([shown(name_of(facts)), *form, shown(facts['line'])])
    if facts.get('means'):
        yield '    %s; %s' % (shown(facts['means']), shown(facts.get('do', '')))


def wanted(words: 'Any') -> 'Dict[str, None]':
    """The files that all lists name, each once. A list that names none isn't well."""
    found = dict.fromkeys(path for name in words.of or () for path in files.listed(name, words.ends_with_nul))  # type: Dict[str, None]
    for path in found:
        if isinstance(path, sources.EmptyFolder):
            raise sources.unread(path, path.why)
    return found


def put_left(words: 'Any', found: 'Latest', names: 'Iterable[str]') -> int:
    """Prints the files of the lists that are still to be judged."""
    done = {name for (_, name), facts in found.items() if facts['result'] != verdict.FAULT}
    end = '\0' if words.ends_with_nul else '\n'
    left = [name for name in names if name not in done]
    sys.stdout.flush()
    from front.write import put
    put(1, os.fsencode(''.join(name + end for name in left)))
    return errors.OK


def total(words: 'Any') -> int:
    if words.left and not words.of or words.ends_with_nul and not words.of:
        raise errors.Refused(errors.USAGE, '--left and -0 go with --of')
    if words.left and words.json:
        raise errors.Refused(errors.USAGE, "--left and --json don't go together")
    found, whole = latest(words.files or ['-'])
    names = wanted(words)
    if words.left:
        return put_left(words, found, names)
    told = {name for _, name in found}
    missing = [name for name in names if name not in told]
    counts = dict.fromkeys(COUNTED, 0)
    for facts in found.values():
        counts[facts['result']] = counts.get(facts['result'], 0) + 1
    counts[MISSING] = len(missing)
    incomplete = bool(missing) or not names and not (whole and found)
    status = many.status_of([*(facts['status'] for facts in found.values()), errors.READ_FAULT * incomplete])
    if whole and not found and not names:
        tell('no line tells of any file')
    if words.json:
        put_object(counts, [facts for facts in found.values() if facts['status']], missing, status)
        return status
    for facts in found.values():
        put_lines(lines_of(facts) if facts['status'] else (), sys.stdout)
    put_lines(('%s: no line tells of it' % shown(name) for name in missing), sys.stdout)
    put_lines([many.count_of(counts)], sys.stdout)
    return status


def put_object(counts: 'Dict[str, int]', bad: 'List[Dict[str, Any]]', missing: 'List[str]', status: int) -> None:
    """Prints all as one object: how many files have each result, the objects of those that weren't accepted, and those of which no line
    tells."""
    verdict.put_facts({'schema': verdict.SCHEMA, 'verb': 'total', 'status': status, 'files': sum(counts.values()),
                       'counts': {result: count for result, count in counts.items() if count},
                       'bad': bad, 'missing': [verdict.of_name(name) for name in missing]})


def offer(verbs: 'Any') -> None:
    words = verb(verbs, 'total', 'count what `mig check --json` told on many hosts, and list what was not accepted', total, TOTAL,
                 {errors.READ_FAULT: 'a line is missing, or is not whole'}, runs=False)
    words.add_argument('files', metavar='FILE', nargs='*')
    words.add_argument('--of', metavar='LIST', action='append', help='look for each file that LIST, or -, names')
    words.add_argument('-0', dest='ends_with_nul', action='store_true', help='with --of: each path ends with NUL, and with --left too')
    in_json(words, 'print one JSON object; not with --left')
    words.add_argument('--left', action='store_true', help='with --of: print the files alone that are still to be judged')
