"""`mig digest`: the SHA-256 of the canonical stream of each guest, a line each as sha256sum writes it, and such lines checked. Two
saves of the same guest state have the same digest, however they are packed, and whoever wrote them."""
import hashlib
import os
import re
import sys

from front import errors, files, forms, many, program, sources, text, verdict
from front.sharing import Memory
from front.text import put_lines, shown
from front.write import put
from front.words import CHOICE, at_once, in_json, takes_files, unpacks, verb

TYPE_CHECKING = False                                # a checker of types takes it for true; typing itself is slow to load
if TYPE_CHECKING:
    from typing import Any, Callable, Iterator, Optional, Set, Tuple

DIGEST = """\
A line has the SHA-256 of the canonical stream of a file's guest, and the file's name, as sha256sum writes them. It is the
digest of what `mig normalise`, or of an old save `mig convert`, writes: so two saves of the same guest state have the same,
whether they are packed or not. What has no digest is told on standard error.

With --check each PATH is a list of such lines, or `-`: for each line the digest is made again, and OK or FAILED is printed. A line
that is none, and an empty list, are told and make the status 1."""
LINE = re.compile(rb'(\\?)([0-9a-f]{64}) [ *](.+)', re.S)
ANOTHER_DIGEST = 'another digest'                    # the result of a file that isn't what a list says
ESCAPED = {b'\\': b'\\\\', b'\n': b'\\n', b'\r': b'\\r'}  # as sha256sum does, with a backslash in front of the line
UNESCAPED = {escaped: letter for letter, escaped in ESCAPED.items()}


def judge_of(path: str, words: 'Any') -> 'Callable[[str], verdict.Verdict]':
    """A function that answers of a file what the program at a path says of it; as many run at once as the words say."""
    memory = Memory(words.jobs)
    folder = words.unpack_to
    return lambda name: memory.given(name, lambda: verdict.of_file(name, lambda name, source: judged(name, path, source, folder)), name != '-')


def judged(name: str, path: str, source: 'Any', folder: 'Optional[str]') -> verdict.Verdict:
    """What `normalise`, or for an old save `convert`, says of a source, and the digest of what it writes. What is packed is unpacked into
    a folder, where one is named."""
    form = forms.form_of(source)
    early = verdict.without_program(name, form)
    if early:
        return early
    sources.unpack_to(source, folder)
    command = 'convert' if form.kind == forms.LEGACY else 'normalise'
    made = hashlib.sha256()
    with program.Work(path, [command], source, form.begins, program.PIPE) as work:
        for block in iter(lambda: sources.read_some(work.out, sources.BLOCK), b''):
            made.update(block)
    found = verdict.of_answer(name, source, form, command, work.said)
    return found._replace(digest=made.hexdigest()) if found.status == errors.OK else found


def line_of(found: verdict.Verdict) -> bytes:
    """The line of a file, with its name as bytes."""
    name = os.fsencode(found.name)
    escaped = re.sub(rb'[\\\n\r]', lambda letter: ESCAPED[letter[0]], name)
    return b'\\' * (escaped != name) + b'%s  %s\n' % (found.digest.encode(), escaped)


def listed(line: bytes) -> 'Optional[Tuple[str, str]]':
    """The name and the digest of a line; None where it is no such line."""
    said = LINE.fullmatch(line)
    if not said:
        return None
    name = re.sub(rb'\\[\\nr]', lambda two: UNESCAPED[two[0]], said[3]) if said[1] else said[3]
    return os.fsdecode(name), said[2].decode()


def written(words: 'Any') -> int:
    """Writes the digest of each file; the status."""
    names, statuses = files.chosen(words), set()  # type: Iterator[str], Set[int]
    for found in many.verdicts(names, words.jobs, judge_of(program.find(), words), 'reading'):
        tell(words, found)
        statuses.add(found.status)
    return many.status_of(statuses)


def tell(words: 'Any', found: verdict.Verdict) -> None:
    """Prints the digest of a file, and tells why it has none."""
    if words.json:
        verdict.put_object(words.verb, found)
        return
    if found.digest:
        put(1, line_of(found))
    verdict.tell_of(found)


def compared(words: 'Any', name: str, path: str) -> int:
    """Says of each file of a list whether it has the digest that is there; the status."""
    try:
        lines = [listed(line) for line in files.text_of(name).splitlines()]
    except errors.Unreadable as why:
        text.tell('%s: fault: read: %s' % (shown(name), why))
        return errors.READ_FAULT
    wanted = [line for line in lines if line]
    statuses = {errors.REFUSED} if len(wanted) < len(lines) or not lines else set()
    for number, line in enumerate(lines, 1):
        if not line:
            text.tell('%s: line %d is no digest and name' % (shown(name), number))
    if not lines:
        text.tell('%s: it has no line' % shown(name))
    names = (sources.Found(file) for file, _ in wanted)
    for found, (_, digest) in zip(many.verdicts(names, words.jobs, judge_of(path, words)), wanted):
        tell_compared(words, found, digest)
        statuses.add(found.status or errors.REFUSED * (found.digest != digest))
    return many.status_of(statuses)


def tell_compared(words: 'Any', found: verdict.Verdict, digest: str) -> None:
    """Says of a file whether its digest is the one that stands in the list."""
    good = found.digest == digest
    if good and words.quiet:
        return
    if words.json:
        if found.status == errors.OK and not good:
            found = found._replace(result=ANOTHER_DIGEST, status=errors.REFUSED)
        verdict.put_object(words.verb, found, {'listed': digest})
        return
    put_lines(['%s: %s' % (shown(found.name), 'OK' if good else 'FAILED')], sys.stdout)
    verdict.tell_of(found)


def digest(words: 'Any') -> int:
    if words.quiet and not words.check:
        raise errors.Refused(errors.USAGE, '-q goes with --check')
    if not words.check:
        return written(words)
    files.refuse_choice(words, "don't go with --check")
    if not words.paths:
        words.usage_fault('the following arguments are required: PATH')
    path = program.find()
    return many.status_of({compared(words, name, path) for name in words.paths})


def offer(verbs: 'Any') -> None:
    words = verb(verbs, 'digest', "print the digest of each guest's canonical stream, or check a list of them", digest, DIGEST + '\n\n' + CHOICE)
    takes_files(words)
    at_once(words)
    unpacks(words)
    in_json(words, 'print one JSON object for each file')
    words.add_argument('--check', action='store_true', help='each PATH is a list of digests: say of each digest whether it is that of its file')
    words.add_argument('-q', dest='quiet', action='store_true', help='with --check: print nothing of what is well')
