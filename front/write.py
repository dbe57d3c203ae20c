"""`mig normalise`, `mig convert`, `mig restore`: one file in, one out. OUT is written beside its place and renamed when
all is well, so that it's never there half written."""
import errno
import os
import sys

from front import errors, files, forms, headers, program, sources, text, verdict
from front.holes import Sparse
from front.progress import LINE
from front.text import put_lines, shown, tell
from front.words import CHOICE, INPUT, INTO, OUT, in_json, takes_files, takes_header, unpacks, verb, writes_over

TYPE_CHECKING = False                                # a checker of types takes it for true; typing itself is slow to load
if TYPE_CHECKING:
    from typing import Any, List, Optional, Union

    from front.words import Words

LIBXL_FRONT = bytes.fromhex('4c6962786c466d74 00000002 00000000 01000000 00000000')
LIBXL_END = bytes(8)
WRITE_FAULT = 'fault: write'                         # the program's line
HEADERS = {'xl': headers.XlHeader, 'libvirt': headers.LibvirtHeader}  # by the toolstack that is named
MODE = 0o600                                         # a guest's memory is its owner's alone, whoever may read the save
UNSYNCED = errno.EINVAL, errno.ENOTSUP, errno.EACCES  # of a folder whose file system has no such call, or which can't be read


def settle(name: str) -> None:
    """Has the names in a folder written to the disk too, so that who removes the input behind this loses nothing."""
    try:
        folder = os.open(name, os.O_RDONLY | os.O_DIRECTORY | os.O_CLOEXEC)
        try:
            os.fsync(folder)
        finally:
            os.close(folder)
    except OSError as fault:
        if fault.errno not in UNSYNCED:
            raise


def is_no_file(name: str) -> bool:
    """Whether a device, a pipe or a socket has this name, in whose place no file may come."""
    try:
        return sources.is_special(os.stat(name))
    except OSError:                                  # nothing is there, or what can't be looked at
        return False


class Output:
    """A file that gets its name when all is well; `-` is standard output, which gets the bytes as they come."""

    def __init__(self, name: str, force: bool) -> None:
        self.name, self.force = name, force
        self.part = None  # type: Any              # the path of what isn't whole yet
        if name == '-':
            self.fd = self.standard()
            return
        if is_no_file(name):
            raise errors.Refused(errors.USAGE, '%s is a device or a pipe, and no file; write to it by - as OUT and `> %s`' % ((shown(name),) * 2))
        if os.path.lexists(name) and not (force and os.path.isfile(name)):
            raise errors.Refused(errors.USAGE, '%s is there already; --force writes over a file' % shown(name))
        if not os.path.basename(name):
            raise errors.Refused(errors.USAGE, "OUT, '%s', names no file" % shown(name))
        self.target = os.path.realpath(name) if force else os.path.abspath(name)  # a link stays, and its file is written over
        self.folder, base = os.path.split(self.target)
        self.part = os.path.join(self.folder, '.%s.%d.part' % (os.fsdecode(os.fsencode(base)[:200]), os.getpid()))
        try:
            self.fd = os.open(self.part, os.O_RDWR | os.O_CREAT | os.O_EXCL | os.O_CLOEXEC, MODE)
        except OSError as fault:
            self.part = None
            raise errors.Refused(errors.WRITE_FAULT, '%s: %s' % (shown(name), sources.why(fault))) from None
        LINE.out = self.fd

    @staticmethod
    def standard() -> int:
        if sys.stdout.isatty():
            raise errors.Refused(errors.USAGE, 'a stream is no text: give it another place than a terminal')
        return 1

    def place(self) -> None:
        """Gives the written file its name. Nothing of that name is written over without --force."""
        if not self.part:
            return
        try:
            os.fsync(self.fd)
            if self.force:
                os.replace(self.part, self.target)
            else:
                self.move()
            self.part = None
            settle(self.folder)
        except FileExistsError:
            raise errors.Refused(errors.USAGE, '%s is there meanwhile; --force writes over it' % shown(self.name)) from None
        except OSError as fault:
            raise errors.Refused(errors.WRITE_FAULT, '%s: %s' % (shown(self.name), sources.why(fault))) from None

    def move(self) -> None:
        """Gives the file a name that nobody has. Where there are no hard links an empty file holds it meanwhile."""
        try:
            os.link(self.part, self.target)
        except FileExistsError:
            raise
        except OSError:
            os.close(os.open(self.target, os.O_WRONLY | os.O_CREAT | os.O_EXCL | os.O_CLOEXEC))
            try:
                os.replace(self.part, self.target)
            except OSError:
                os.unlink(self.target)
                raise
        else:
            os.unlink(self.part)

    def close(self) -> None:
        """Takes away what isn't whole; where that can't be done, it is told."""
        if self.fd != 1:
            LINE.out = None
            os.close(self.fd)
        try:
            if self.part:
                os.unlink(self.part)
        except FileNotFoundError:
            pass
        except OSError as fault:
            tell('%s is no whole file and stays: %s' % (shown(self.part), sources.why(fault)))


def put(fd: int, data: bytes) -> None:
    try:
        with text.LOCK:
            for call in text.BEFORE_LINES if fd == 1 else ():
                call()
            sources.write_all(fd, data)
    except OSError as fault:
        raise errors.Refused(errors.WRITE_FAULT, 'fault: write: ' + sources.why(fault)) from None


def configuration(source: 'Any', form: forms.Form, toolstack: str) -> bytes:
    """The configuration that stands in the header of this toolstack."""
    header = form.header
    if not isinstance(header, HEADERS[toolstack]):
        raise errors.Refused(errors.USAGE, '--%s: there is no %s header to put back; IN is a %s' % (toolstack, toolstack, form.words))
    if header.length > sources.MOST_KEPT:
        raise errors.Refused(errors.USAGE, "--%s: the configuration in %s's header has more than 64 MiB" % (toolstack, toolstack))
    data = source.at(header.stream_begins - header.length, header.length)  # type: bytes
    return data


def copy(pipe: int, out: int) -> None:
    """Passes on all that comes."""
    for block in iter(lambda: sources.read_some(pipe, sources.BLOCK), b''):
        put(out, block)


class Straight:
    """A file or a pipe that gets all bytes as they come."""

    def __init__(self, fd: int) -> None:
        self.fd = fd

    def put(self, data: bytes) -> None:
        put(self.fd, data)

    def copy(self, pipe: int) -> None:
        copy(pipe, self.fd)

    def end(self) -> None:
        """All is written."""


def with_header(pipe: int, out: 'Union[Straight, Sparse]', front: bytes) -> None:
    """Passes on what the program writes, with a header in front, and with a libxl stream around a bare image."""
    first = sources.read_upto(pipe, len(forms.LIBXL_MAGIC))
    if not first:
        return
    bare = first != forms.LIBXL_MAGIC
    out.put(front + LIBXL_FRONT * bare + first)
    out.copy(pipe)
    out.put(LIBXL_END * bare)


def passed_on(path: str, command: 'List[str]', source: 'Any', begins: int, out: 'Union[Straight, Sparse]',
              front: 'Optional[bytes]') -> program.Answer:
    """What the program answers, while its output is passed on, with a header in front where there is one."""
    with program.Work(path, command, source, begins, program.PIPE) as work:
        if front is None:
            out.copy(work.out)
        else:
            with_header(work.out, out, front)
        out.end()
    return work.said


def answer(words: 'Any', path: str, command: 'List[str]', source: 'Any', form: forms.Form, output: Output) -> program.Answer:
    """What the program answers, while its output goes to OUT. One that gets all of it as it comes is written by the program itself."""
    out = Sparse(output.fd) if words.holes and output.part else Straight(output.fd)  # type: Union[Straight, Sparse]
    if words.toolstack:
        front = form.header.before_v2(configuration(source, form, words.toolstack))
        return passed_on(path, command, source, form.begins, out, front)
    if isinstance(out, Straight):
        return program.run(path, command, source, form.begins, output.fd)
    try:
        return passed_on(path, command, source, form.begins, out, None)
    except errors.Refused as refused:
        if refused.status != errors.WRITE_FAULT:
            raise
        return program.Answer(errors.WRITE_FAULT, WRITE_FAULT)  # as the program itself tells it


def command_of(words: 'Any') -> 'List[str]':
    base = getattr(words, 'base', None)
    return [words.verb] + ([base] if base is not None else [])


def written(words: 'Any', path: str, name: str, source: 'Any', output: Output) -> verdict.Verdict:
    """The verdict of a file of which the program writes what was asked for."""
    form = forms.form_of(source)
    early = verdict.without_program(name, form)
    if early:
        return early
    if words.toolstack:
        configuration(source, form, words.toolstack)
    sources.unpack_to(source, words.unpack_to)
    said = answer(words, path, command_of(words), source, form, output)
    if said.status == errors.USAGE:
        raise errors.BadWords(errors.USAGE, '--base has to be from 1 to 1099494850560')
    return verdict.of_answer(name, source, form, words.verb, said)


def result_of(words: 'Any', path: 'Optional[str]', name: str, source: 'Any', place: str) -> verdict.Verdict:
    """The verdict of a file whose result gets this place where all is well."""
    output = Output(place, words.force)
    try:
        found = written(words, path or program.find(), name, source, output)
        if found.status == errors.OK:
            output.place()
        return found
    finally:
        output.close()


def write(words: 'Any') -> int:
    words.toolstack = getattr(words, 'toolstack', None)
    if words.directory is not None:
        from front.into import into
        return into(words)
    files.refuse_choice(words, 'go with -t')
    if words.skip_existing:
        raise errors.Refused(errors.USAGE, '--skip-existing goes with -t')
    if len(words.paths) != 2:
        words.usage_fault('IN and OUT are wanted, or -t DIR and PATHs')
    name, output = words.paths
    found = verdict.of_one(name, lambda source: result_of(words, None, name, source, output), words.json)
    if words.json:
        to = {} if found.status or output == '-' else verdict.of_name(output, 'to')
        verdict.put_object(words.verb, found, to, sys.stderr if output == '-' else sys.stdout)
    elif found.status or found.follows:
        lines = list(found.lines())
        put_lines(lines[bool(found.status == errors.OK):], sys.stderr)
    return int(found.status)


def offer(verbs: 'Any', name: str, says: str, with_toolstacks: bool = True) -> 'Words':
    """Offers one of the three verbs."""
    words = verb(verbs, name, says, write, '\n\n'.join((INPUT, OUT, INTO, CHOICE)))
    words.usage = 'mig %s [OPTION...] IN OUT\n       mig %s [OPTION...] -t DIR PATH...' % (name, name)
    takes_files(words, 'IN and OUT; with -t files and folders')
    words.add_argument('-t', '--target-directory', dest='directory', metavar='DIR', help='write one result for each PATH in DIR')
    words.add_argument('--skip-existing', action='store_true', help='with -t: pass over what has its result in DIR')
    writes_over(words)
    unpacks(words)
    words.add_argument('--holes', action='store_true', default=True,
                       help='leave out blocks of zeros, which take no room on the disk then (the default)')
    words.add_argument('--no-holes', dest='holes', action='store_false', help='write all zeros to the disk')
    in_json(words, 'print one JSON object, or with -t one for each file and no count')
    if with_toolstacks:
        takes_header(words, "put %s's header back in front", ', so that `%s` takes OUT')
    return words
