"""`mig save`: the image of a host and a script in, the stream of a live save out. The program takes both as one input, the
script behind the image; so the image is walked while it is passed on, and nothing but the script comes behind it."""
import io
import os
import re
import struct
import sys
import threading

from front import errors, forms, places, program, sources, verdict
from front.progress import LINE
from front.text import put_lines
from front.write import Output
from front.words import in_json, verb, writes_over

TYPE_CHECKING = False                                # a checker of types takes it for true; typing itself is slow to load
if TYPE_CHECKING:
    from typing import Any, Callable, IO, List, Optional, Tuple

SCRIPT = """\
IMAGE is a guest image, as `mig restore` writes it; it may be packed by gzip, zstd or xz. SCRIPT has a line for each thing that the
guest does meanwhile:
  w PFN OFFSET HEX         writes bytes in a frame's page
  t PFN TYPE               gives a frame another type: 0 NOTAB, 13 BROKEN, 14 XALLOC; of a PV guest also 1 to 4 and 9 to 12,
                           page tables
  a PFN MFN                adds a frame with a zero page and this machine frame
  r PFN                    removes a frame
  x PFN MFN                gives a frame another machine frame
  p CODE KEY1 KEY2 HEX     replaces a part of the host by one of the same length
  .                        ends a group
Each call that the saver makes of the host first runs the next group: the first call what stands before the first dot.
What the saver has not reached by its pause never runs. A line that does not apply does nothing.

One of IMAGE and SCRIPT may be `-`, standard input. OUT is written beside its place and renamed when all is well; `-` is
standard output, and what is told stands on standard error then."""
MOST_SCRIPT = 1 << 24                                # bytes; the program refuses a script with more
MOST_SHOWN = 60                                      # so much of a line is shown
SCRIPT_LINE = re.compile(r'refused: Script (\d+):')


class Fed:
    """A source that has an image, and behind it a script. A cut image has none behind it, so that the program sees where it was cut.
    Where anything follows the image, or that can't be read, the program gets an empty line in the script's place, which is a bad one,
    so that nothing is written."""

    def __init__(self, image: 'Any', script: bytes) -> None:
        self.image, self.script, self.follows = image, script, 0
        self.fault, self.unforeseen = None, None  # type: Optional[str], Optional[Exception]
        self.feeder = None  # type: Any            # the thread that feeds the program

    def read_so_far(self) -> int:
        return int(self.image.read_so_far())

    def input_from(self, begins: int) -> int:
        taken, into = os.pipe()
        self.feeder = threading.Thread(target=self.feed, args=(self.image.input_from(begins), into), daemon=True)
        self.feeder.start()
        self.taken = taken
        return taken

    def feed(self, image: int, into: int) -> None:
        try:
            with io.BufferedWriter(io.FileIO(into, 'w'), sources.BLOCK) as out:
                self.pass_on(io.BufferedReader(io.FileIO(os.dup(image)), sources.BLOCK), out)
        except BrokenPipeError:                      # the program has ended before
            pass
        except OSError as fault:
            self.fault = sources.why(fault)
        except Exception as unforeseen:
            self.unforeseen = unforeseen

    def pass_on(self, image: 'IO[bytes]', out: 'IO[bytes]') -> None:
        def take(count: int) -> bytes:
            data = image.read(count)
            out.write(data)
            if len(data) < count:
                raise errors.Cut
            return data
        with image:
            try:
                pass_image(take)
                self.look_behind(image)
            except errors.Cut:
                return
            except BrokenPipeError:
                raise
            except OSError as fault:
                self.fault = sources.why(fault)
        out.write(b'\n' if self.follows or self.fault else self.script)

    def look_behind(self, image: 'IO[bytes]') -> None:
        """How much follows the image, of which no more is read than what follows a stream."""
        while self.follows < sources.MOST_BEHIND:
            block = image.read(sources.BLOCK)
            self.follows += len(block)
            if not block:
                break

    def ended(self, accepted: bool) -> 'Optional[str]':
        os.close(self.taken)
        self.feeder.join()
        if self.unforeseen:
            raise self.unforeseen
        return self.fault or self.image.ended(accepted)


def pass_image(take: 'Callable[[int], bytes]') -> None:
    """Takes each part of an image once, whatever it holds: a head says how much follows it."""
    name, frames = struct.unpack('<8s16xQ', take(places.FILE_HEAD))
    for _ in range(frames):
        word, = struct.unpack('<Q8x', take(places.PART_HEAD))
        if places.is_page_sent(word, name == forms.IMAGE_MAGICS[1]):
            take(places.PAGE)
    parts, = struct.unpack('<Q', take(8))
    for _ in range(parts):
        length, = struct.unpack('<12xI', take(places.PART_HEAD))
        left = length + -length % 8
        while left:
            left -= len(take(min(left, sources.BLOCK)))


def script_of(source: 'Any') -> bytes:
    """All bytes of a script, or one more than it may have."""
    text = sources.read_upto(source.input_from(0), MOST_SCRIPT + 1)
    fault = source.ended(len(text) <= MOST_SCRIPT)
    if fault:
        raise errors.Unreadable(fault)
    return text


def answer(path: str, image: 'Any', script: bytes, out: int) -> 'Tuple[program.Answer, int]':
    """What the program answers, and how many bytes follow the image in its file."""
    fed = Fed(image, script)
    return program.run(path, ['save'], fed, 0, out), fed.follows


def line_shown(script: bytes, number: int) -> str:
    """The line of a script with this number, counted from 1, as it is shown."""
    line = script.split(b'\n', number)[number - 1]
    return repr(line[:MOST_SHOWN])[1:] + ' ..' * (len(line) > MOST_SHOWN)


def form_of(image: 'Any') -> forms.Form:
    """The form of what was given as an image; whatever it is, the program looks at it from its first byte on."""
    form = forms.form_of(image)
    return forms.found(form.kind, form.words if form.kind != forms.NONE else None)


def verdict_of(words: 'Any', image: 'Any', form: forms.Form, script: bytes, said: program.Answer, follows: int) -> verdict.Verdict:
    """What is to be said of a save of which the program answered this."""
    if follows and said.line.startswith('refused: Script'):
        line = 'refused: %d bytes follow the end of the image' % follows
        return verdict.Verdict.of(words.image, verdict.REFUSED, errors.REFUSED, line, form.words,
                               means='they would be taken for lines of the script', do='cut them off')
    found = verdict.of_answer(words.image, image, form, 'save', said)
    if not said.line.startswith('refused: Script'):
        return found
    bad = SCRIPT_LINE.match(said.line)
    return found._replace(name=words.script, form=None, packed=None, begins=None, text=bad and line_shown(script, int(bad[1])))


def saved(words: 'Any', path: str, image: 'Any', script: bytes, output: Output) -> verdict.Verdict:
    """The verdict of an image and a script, of which the program writes the stream."""
    form = form_of(image)
    said, follows = answer(path, image, script, output.fd)
    found = verdict_of(words, image, form, script, said, follows)
    if found.status == errors.OK:
        output.place()
    if found.status == errors.OK and words.output != '-':
        return found._replace(size=os.stat(words.output).st_size)
    return found


def show(words: 'Any', found: verdict.Verdict) -> None:
    """Prints a verdict: on standard output, or on standard error where that has the stream, and of a refusal."""
    to = sys.stderr if words.output == '-' or found.status and not words.json else sys.stdout
    if words.json:
        verdict.put_facts({**found.facts(), 'image': words.image, 'script': words.script}, to)
        return
    is_none = words.output == '-' and found.line.startswith('refused: Pause')
    put_lines([*found.lines(), *['    what was written to standard output is no stream; throw it away'] * is_none], to)


def read(name: str, opened: 'List[Any]', use: 'Callable[[Any], Any]') -> 'Any':
    """What a function answers of the source of a file, which is opened and closed later; where that can't be read, `name` tells which
    file it was."""
    try:
        opened.append(sources.source_of(name))
        return use(opened[-1])
    except errors.Unreadable as why:
        why.name = name
        raise


def of_files(words: 'Any', opened: 'List[Any]') -> verdict.Verdict:
    """The verdict of the image and the script, of which OUT has got its name where all is well."""
    image = read(words.image, opened, lambda source: source)
    script = read(words.script, opened, script_of)
    output = Output(words.output, words.force)
    try:
        return saved(words, program.find(), image, script, output)
    finally:
        output.close()


def save(words: 'Any') -> int:
    if words.image == words.script == '-':
        raise errors.Refused(errors.USAGE, 'IMAGE and SCRIPT are both standard input')
    opened = []  # type: List[Any]
    LINE.begin('saving', [words.image])
    try:
        found = of_files(words, opened)
    except errors.Unreadable as why:
        name = why.name or words.image
        if not words.json:
            raise sources.unread(name, why) from None
        found = verdict.fault(name, str(why))
    finally:
        for source in opened:
            source.close()
    show(words, found)
    return int(found.status)


def offer(verbs: 'Any') -> None:
    words = verb(verbs, 'save', 'save the host in a guest image live, while a script changes it', save, SCRIPT,
                 {errors.REFUSED: 'the image, the script or the paused host was refused'})
    words.add_argument('image', metavar='IMAGE')
    words.add_argument('script', metavar='SCRIPT')
    words.add_argument('output', metavar='OUT')
    writes_over(words)
    in_json(words)
