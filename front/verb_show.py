"""`mig show`: the program's JSON text of each file's records, a line each, on standard output. What is told of a file stands on
standard error."""
import json
import sys

from front import errors, forms, program, sources, verdict, write
from front.files import chosen
from front.many import status_of
from front.progress import LINE
from front.text import put_lines, shown
from front.words import CHOICE, takes_files, verb

TYPE_CHECKING = False                                # a checker of types takes it for true; typing itself is slow to load
if TYPE_CHECKING:
    from typing import Any, IO, Iterator, List, Optional, Set, Tuple

SHOW = """\
Files and folders, with all files below, and `-` for standard input; each is what `mig check` takes, but no old save.

For each file one line stands on standard output, a JSON object without spaces:
  kind         "pv" or "hvm"; null where the stream is refused before its domain header was judged
  version      the version of the image; null where the stream is refused before the image's header was judged
  wrapper      whether it is a libxl stream
  records      an object for each record that stands whole, with its padding, in front of the part that is refused; those of
               an image in a libxl stream stand behind its LIBXC_CONTEXT
  refused      null, or place and cause, as they stand behind `refused: ` in the line of a refusal
The object of a record has layer ("libxc" or "libxl"), length (the bytes of its body), name (as Xen's documents have it, or
"optional"), type (its number), and of a PAGE_DATA pages and words: how many of its frame numbers have a page, and how many
there are. With --names the line is {"file": NAME, "shown": OBJECT}. What is told of a file stands on standard error.

The stream is judged as `mig relay` does it, so what needs the whole guest isn't looked at; `mig check` tells that. No page is
kept in memory, but what is shown of each record is, until the line is written."""
OLD = 'not judged: an old save has no such records; what `mig convert` makes of it has'


def behind_name(pipe: 'IO[bytes]', name: str) -> None:
    """Writes what the program writes, where it writes a whole line, in an object with the file's name."""
    text = pipe.read()
    if text.endswith(b'\n'):
        write.put(1, b'{"file": %s, "shown": %s}\n' % (json.dumps(name).encode(), text.rstrip(b'\n')))


def answer(words: 'Any', path: str, name: str, source: 'Any', begins: int) -> program.Answer:
    """What the program answers, while its text goes to standard output."""
    if not words.names and not sys.stdout.isatty():  # which nothing that is started gets
        return program.run(path, ['show'], source, begins, 1)
    with program.Work(path, ['show'], source, begins, program.PIPE) as work:
        behind_name(work.process.stdout, name) if words.names else write.copy(work.out, 1)  # type: ignore[arg-type]
    return work.said


def listed(words: 'Any', path: str, name: str, source: 'Any') -> verdict.Verdict:
    """The verdict of a source whose records are written."""
    form = forms.form_of(source)
    if form.kind == forms.LEGACY:
        return verdict.Verdict.of(name, verdict.NOT_JUDGED, errors.REFUSED, OLD, form.words)
    early = verdict.without_program(name, form)
    return early or verdict.of_answer(name, source, form, 'show', answer(words, path, name, source, form.begins))


def listed_file(words: 'Any', path: str, name: str) -> 'Tuple[int, List[str]]':
    """The status of a file whose records are written, and the lines that tell all that isn't its text."""
    source = None  # type: Optional[sources.Source]
    try:
        source = sources.source_of(name)
        found = listed(words, path, name, source)
    except errors.Special:
        return errors.REFUSED, ['mig: %s: %s' % (shown(name), verdict.SPECIAL)]
    except errors.Unreadable as unreadable:
        return errors.READ_FAULT, ['mig: %s: fault: read: %s' % (shown(name), unreadable)]
    finally:
        if source:
            source.close()
    return found.status, list(found.lines())[found.status == errors.OK:]


def show(words: 'Any') -> int:
    names, path, statuses = chosen(words), program.find(), set()  # type: Iterator[str], str, Set[int]
    LINE.is_terminal = LINE.is_terminal and not sys.stdout.isatty()  # where the program's own text would stand behind it
    for done, name in enumerate(LINE.begin('listing', names)):
        LINE.at(done, name)
        status, lines = listed_file(words, path, name)
        put_lines(lines, sys.stderr)
        statuses.add(status)
    return status_of(statuses)


def offer(verbs: 'Any') -> None:
    words = verb(verbs, 'show', 'write the records of each file as JSON, up to the part that is refused', show, SHOW + '\n\n' + CHOICE,
                 {errors.REFUSED: 'what stands in front of the refused part is told'})
    takes_files(words)
    words.add_argument('--names', action='store_true', help='put each text in an object with the name of its file')
