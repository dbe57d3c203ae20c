"""Runs the built program on inputs of chosen bytes, with chosen calls failing or coming short (faults.c) or little memory,
and tells what the second reader says that it has to answer.
"""
import collections
import contextlib
import functools
import hashlib
import importlib.machinery
import importlib.util
import os
import resource
import shutil
import signal
import struct
import subprocess
import sys
import tempfile
import threading

HERE = os.path.dirname(os.path.abspath(__file__))
TESTS = os.path.dirname(HERE)
sys.dont_write_bytecode = True
sys.path.append(TESTS)
import lines  # noqa: E402
import tried  # noqa: E402

ENVIRONMENT = dict(os.environ)
TRACER = 'HOSTILE_TRACER'                            # names the program that runs the other
DONE, REFUSED, USAGE, READ_FAULT, WRITE_FAULT, MEMORY = range(6)
OF_CHECK = CHECK, LEGACY = [], ['legacy']              # the words of mig_check
# status, what stands on standard output, what stands on standard error
Answer = collections.namedtuple('Answer', 'status out report')
NO_READ, NO_WRITE, NO_MEMORY = (Answer(status, out, line.encode() + b'\n') for status, out, line in (
    (READ_FAULT, b'', lines.READ_FAULT), (WRITE_FAULT, None, lines.WRITE_FAULT), (MEMORY, b'', lines.MEMORY)))
# what faults.c counts, in its order
Told = collections.namedtuple('Told', 'reads bytes_read outs reports allocations asked most_asked live peak')
TOLD = struct.Struct('<7Q2q')


def script(name):
    """A script of tests/, as a module."""
    path = os.path.join(TESTS, *name.split('/'))
    if os.path.dirname(path) not in sys.path:
        sys.path.insert(0, os.path.dirname(path))
    loader = importlib.machinery.SourceFileLoader(name.replace('/', '_'), path)
    module = importlib.util.module_from_spec(importlib.util.spec_from_loader(loader.name, loader))
    loader.exec_module(module)
    return module


examples, second = script('examples/run'), script('second_reader/run')


def is_check(tool):
    """Whether a program is mig_check, and not mig_tool."""
    return os.path.basename(tool).startswith('mig_check')


def no_command(tool):
    """What is answered to words that name no command."""
    return Answer(USAGE, b'', (lines.CHECK_USAGE if is_check(tool) else lines.USAGE).encode() + b'\n')


def named(words):
    """Words by which a try tells of a command; mig_check has one without words."""
    return words[0] if words else 'mig_check'


@functools.cache
def loaded(name):
    """A case of tests/examples."""
    return examples.load(os.path.join(TESTS, 'examples', 'cases', name + '.case'))


def case(name):
    """The input of a case of tests/examples."""
    return bytes(loaded(name)['in'])


def wanted(words, data):
    """What the second reader answers; its output is None where `save` may have written anything that is no stream."""
    return Answer(*(second.checked(words, data) if words in OF_CHECK else second.judged(words, data)))


def passes_on(words):
    """Whether the command writes while it judges."""
    return words == ['relay']


def reads_by_place(words):
    """Whether the command reads a file by place, and passes over what it has no need of: each that reads a stream, but that
    which passes it on."""
    return words in OF_CHECK or not passes_on(words) and words[:1] not in (['save'], ['exercise'], ['walkimage'])


def copies(words):
    """Whether the command reads pages of a file once more where it writes them."""
    return words in (['normalise'], ['convert']) or words[:1] == ['restore']


def no_read(words, front):
    """What is answered where this front of an input came, and then a read failed: of `relay` it is passed on."""
    return NO_READ._replace(out=wanted(words, front).out) if passes_on(words) else NO_READ


def is_no_memory(words, got, want):
    """Whether want of memory is told. Nothing was written then, but by `relay` a front of what is wanted with much memory."""
    front = got.out if passes_on(words) and is_front(got.out, want.out) else b''
    return got == NO_MEMORY._replace(out=front)


def is_front(part, whole):
    """Whether it is a front, and not all."""
    return len(part) < len(whole) and whole.startswith(part)


# ---- one run after another, on files in memory

class Runs:
    """Runs a program again and again: standard input, output and error are three files in memory, which are its own."""

    def __init__(self, tool):
        self.tool = tool
        self.files = [os.memfd_create(name) for name in ('input', 'out', 'report')]
        self.actions = [(os.POSIX_SPAWN_DUP2, file, number) for number, file in enumerate(self.files)]

    def __del__(self):
        for file in self.files:
            os.close(file)

    def give(self, data):
        """The input of the runs that follow."""
        os.ftruncate(self.files[0], 0)
        left = memoryview(data)
        while left:
            left = left[os.pwrite(self.files[0], left, len(data) - len(left)):]

    def cut(self, length):
        """Leaves so many bytes of the input."""
        os.ftruncate(self.files[0], length)

    def answer(self, words, environment=None):
        for file in self.files:
            os.lseek(file, 0, os.SEEK_SET)
        for file in self.files[1:]:
            os.ftruncate(file, 0)
        whole = {**ENVIRONMENT, **environment} if environment else ENVIRONMENT
        line = [it for it in (whole.get(TRACER), self.tool, *words) if it is not None]
        process = os.posix_spawn(line[0], line, whole, file_actions=self.actions, setsigdef=[signal.SIGPIPE])
        status = os.waitstatus_to_exitcode(os.waitpid(process, 0)[1])
        return Answer(status, *(os.pread(file, os.fstat(file).st_size, 0) for file in self.files[1:]))


def differences(got, want):
    """What of an answer isn't as wanted; a part that is None may be anything."""
    if got.status != want.status:
        yield 'status %d, wanted %d' % (got.status, want.status)
    if want.report is not None and got.report != want.report:
        yield 'report %r, wanted %r' % (got.report[:200], want.report)
    if want.out is not None and got.out != want.out:
        yield 'out has %d bytes, wanted %d' % (len(got.out), len(want.out))


# ---- calls that fail

def compiler():
    """The path of a C compiler; None where there is none."""
    return next(filter(None, map(shutil.which, ('cc', 'gcc', 'clang'))), None)


def has_loader(tool):
    """Whether a program is begun by the system's loader (PT_INTERP of ELF), so that a library can stand before its own."""
    with open(tool, 'rb') as file:
        data = file.read()
    first, size, count = struct.unpack_from('<Q', data, 32)[0], *struct.unpack_from('<HH', data, 54)
    return any(struct.unpack_from('<I', data, first + number * size)[0] == 3 for number in range(count))


class Faults:
    """Makes calls of a program fail, by a library that comes before the program's own, built of faults.c into a folder that is
    gone at the end. Has the file in which it counts, of each process its own."""
    counts_memory, source, how = True, 'faults.c', ('-shared', '-fPIC')

    def __init__(self, folder):
        self.folder, self.made = folder, os.path.join(folder, 'made')
        words = [compiler(), *self.how, '-O1', '-o', self.made, os.path.join(HERE, self.source), '-ldl']
        subprocess.run(words, check=True)

    def told_in(self):
        return os.path.join(self.folder, 'told-%d' % os.getpid())

    def environment(self, **chosen):
        """The environment in which these calls fail: read='0 5' for HOSTILE_READ. Counting begins anew."""
        with open(self.told_in(), 'wb') as file:
            file.write(bytes(TOLD.size))
        names = {'HOSTILE_' + name.upper(): str(what) for name, what in chosen.items()}
        return {self.variable(): self.made, 'HOSTILE_TOLD': self.told_in(), **names}

    @staticmethod
    def variable():
        return 'LD_PRELOAD'

    def told(self):
        """What was counted in the last run."""
        with open(self.told_in(), 'rb') as file:
            return Told(*TOLD.unpack(file.read()))


class Traced(Faults):
    """The same of a program that has its C library inside, by another that traces it; it sees no allocation."""
    counts_memory, source, how = False, 'traced.c', ()

    @staticmethod
    def variable():
        return TRACER

    def works(self, tool):
        """Whether programs may be traced here."""
        words = [self.made, tool, 'it']
        return subprocess.run(words, stdin=subprocess.DEVNULL, stderr=subprocess.DEVNULL, check=False).returncode == USAGE


class NoFaults:
    """What stands in where no call can be made to fail: none fails, and none is counted."""
    counts_memory = False

    def environment(self):
        return {}

    def told(self):
        return None


@contextlib.contextmanager
def faults(tool):
    """What makes calls of a program fail; NoFaults where nothing can, which is told."""
    if not compiler():
        tried.skipped('calls that fail, and memory that is counted', 'no C compiler is installed (cc, gcc or clang)')
        yield NoFaults()
        return
    with tempfile.TemporaryDirectory(prefix='mig_tool-hostile-') as folder:
        if has_loader(tool):
            yield Faults(folder)
            return
        tried.skipped('memory that fails or is counted, and calls that come short by many', 'the program has its C library inside')
        traced = Traced(folder)
        if not traced.works(tool):
            tried.skipped('calls that fail', 'no program may be traced here')
            traced = NoFaults()
        yield traced


# ---- little memory

def with_limit(tool, words, data, most, environment=None):
    """An answer of the program where its address space may have so many bytes."""
    def limit():
        resource.setrlimit(resource.RLIMIT_AS, (most, most))
        resource.setrlimit(resource.RLIMIT_CORE, (0, 0))
    ended = subprocess.run([tool, *words], input=data, capture_output=True, preexec_fn=limit, check=False,
                           env={**ENVIRONMENT, **(environment or {})})
    return Answer(ended.returncode, ended.stdout, ended.stderr)


# what went through a program: its status, how many bytes it wrote and their digest, its report
Passed = collections.namedtuple('Passed', 'status length digest report')


def digest_of(blocks):
    digest = hashlib.sha256()
    for block in blocks:
        digest.update(block)
    return digest.digest()


def passed_through(tool, words, blocks, most):
    """What goes through the program where its address space may have so many bytes; nothing of it is kept here."""
    def limit():
        resource.setrlimit(resource.RLIMIT_AS, (most, most))

    def feed():
        with contextlib.suppress(BrokenPipeError), started.stdin:
            for block in blocks:
                started.stdin.write(block)
    pipes = dict.fromkeys(('stdin', 'stdout', 'stderr'), subprocess.PIPE)
    with subprocess.Popen([tool, *words], preexec_fn=limit, **pipes) as started:
        feeder = threading.Thread(target=feed)
        feeder.start()
        length, digest = 0, hashlib.sha256()
        while block := started.stdout.read(1 << 20):
            length, _ = length + len(block), digest.update(block)
        report = started.stderr.read()
        feeder.join()
    return Passed(started.returncode, length, digest.digest(), report)


# ---- inputs of each form

def live_host():
    """The image of an HVM host with emulators, and a script that changes pages, parts and contexts while it is saved."""
    rounds = list(examples.hvm_rounds(case('smallest-hvm')[56:96]))
    return rounds[0][0].image() + '.\n'.join(lines for _, _, lines, _, _ in rounds).encode()


def forms(tool):
    """Of each form of input a name, the words of the commands of the program that accept it, and one that has much of the form."""
    streams = {'HVM': case('as-xen-4.17-writes-it'), 'PV': case('pv-as-xen-4.17-writes-it'),
               'libxl': wanted(['save'], live_host()).out, 'libxl PV': case('libxl-pv-optional-records')}
    if is_check(tool):
        yield from ((name, CHECK, data) for name, data in streams.items())
        yield from (('legacy', LEGACY, case(name)) for name in ('legacy-all-kinds', 'legacy-hvm'))
        return
    for name, data in streams.items():
        yield name, ['restore', '4096'], data
        yield name, ['verify'], data
        yield name, ['normalise'], data
        yield name, ['relay'], data
        yield name, ['show'], data
    for command in 'normalise', 'relay', 'show':
        yield 'smallest HVM', [command], case('smallest-hvm')
    yield 'legacy', ['convert'], case('legacy-all-kinds')
    yield 'small legacy', ['convert'], case('legacy-hvm')
    yield 'HVM image', ['save'], live_host()
    yield 'PV image', ['save'], case('save-pv-host')
    for form, name in ('PV', 'walk-a-frame'), ('PV image', 'walkimage-a-frame'):
        yield form, loaded(name)['words'].split(), case(name)
    yield 'no input', ['exercise', '3', '20'], b''
