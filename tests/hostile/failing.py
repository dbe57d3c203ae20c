"""Reads and writes of the standard streams that fail or come short, each in turn: by faults.c, and by what a system does of
itself (full disks, closed pipes, files that shrink).

A read that fails has to give status 3, and a write of standard output that fails status 4. So has a write of standard error,
where a line says what was found. Each has its line. Standard output has nothing where the status isn't 0 or 4, and with status 4
a proper prefix of what status 0 writes. `normalise` of a file, which reads pages again where it writes them, may have written one
with status 3 too. Of `save` no front of it is a stream, but where its line failed it is the whole stream. `relay` writes while it
judges: with status 3 exactly what it passes on of the bytes that came is there, with status 4 what `save` has. `show` writes its
text with status 1 too, once all is read, and with status 4 a proper prefix of that. An interrupted call is a failed one.
"""
import errno
import fcntl
import os
import resource
import signal
import socket
import subprocess
import tempfile

import program

READ_ERRORS = errno.EIO, errno.EINTR
WRITE_ERRORS = errno.EIO, errno.ENOSPC, errno.EPIPE, errno.EINTR, 0        # 0: no byte is taken, and no error is told
SHORT = 1, 7
PLACES = 40                                                                # of a long output, where a write fails


class Asked:
    """A command and its input, what it has to answer, and how many reads and writes it makes where none fails."""

    def __init__(self, tool, faults, name, words, data):
        self.name, self.words, self.faults, self.runs, self.data = name, words, faults, program.Runs(tool), data
        self.runs.give(data)
        self.want = program.wanted(words, data)
        self.got = self.answer()
        self.made = faults.told()

    def answer(self, **chosen):
        return self.runs.answer(self.words, self.faults.environment(**chosen))

    def input(self):
        """The file that is the input, from its first byte on."""
        os.lseek(self.runs.files[0], 0, os.SEEK_SET)
        return self.runs.files[0]

    def calls_made(self, **chosen):
        self.answer(**chosen)
        return self.faults.told()

    def differences(self, what, got, want):
        for why in program.differences(got, want):
            yield '%s, %s, %s: %s' % (self.name, program.named(self.words), what, why)


def after_a_failed_read(it, what, got):
    """What isn't as it has to be where a read failed, behind those whose bytes were counted."""
    if program.copies(it.words):
        yield from after_a_failed_copy(it, what, got)
    else:
        yield from it.differences(what, got, program.no_read(it.words, it.data[:it.faults.told().bytes_read]))


def after_a_failed_copy(it, what, got):
    """The same of a command that writes pages as it reads them again: a part of its output may be there."""
    yield from it.differences(what, got, program.NO_READ._replace(out=got.out))
    if got.out and not program.is_front(got.out, it.want.out):
        yield '%s, %s, %s: what was written is no proper prefix' % (it.name, program.named(it.words), what)


def every(tool, faults):
    for name, words, data in program.forms(tool):
        yield Asked(tool, faults, name, words, data)


def every_refused(tool, faults):
    """Commands whose input is cut before its last byte, and words that name no command."""
    for name, words, data in program.forms(tool):
        if data and words != ['save']:
            yield Asked(tool, faults, name, words, data[:-1])
    if not program.is_check(tool):
        yield Asked(tool, faults, 'HVM image', ['save'], program.live_host() + b'w')
    usage = Asked(tool, faults, 'words', program.CHECK if program.is_check(tool) else ['verify'], b'')
    usage.words, usage.want = ['verify', 'it'], program.no_command(tool)
    usage.got = usage.answer()
    usage.made = faults.told()
    yield usage


def every_writing(tool, faults):
    """Commands that write all at the end: accepted inputs, and of `show`, which writes of refused ones too, also those."""
    yield from every(tool, faults)
    yield from (it for it in every_refused(tool, faults) if it.words == ['show'])


def nothing_fails(tool, faults):
    """The program's reads and writes are those that faults.c sees."""
    for it in (*every(tool, faults), *every_refused(tool, faults)):
        yield from it.differences('where nothing fails', it.got, it.want)
        if it.want.status == program.DONE and program.named(it.words) != 'exercise' and it.made.reads == 0:
            yield '%s, %s: no read was seen' % (it.name, program.named(it.words))
        if (it.want.out and not it.made.outs) or (it.want.report and not it.made.reports):
            yield '%s, %s: no write was seen' % (it.name, program.named(it.words))


def reads(tool, faults):
    """Each read fails in turn."""
    for it in (*every(tool, faults), *every_refused(tool, faults)):
        for number in range(it.made.reads):
            for error in READ_ERRORS:
                got = it.answer(read='%d %d' % (number, error))
                yield from after_a_failed_read(it, 'read %d fails by %d' % (number, error), got)


def reads_of_pieces(tool, faults):
    """The same where each read gives few bytes, so that a fault comes in the middle of any part."""
    for it in every(tool, faults):
        most = max(1, -(-it.made.bytes_read // PLACES))
        for number in range(it.calls_made(read_most=most).reads):
            got = it.answer(read='%d %d' % (number, errno.EIO), read_most=most)
            yield from after_a_failed_read(it, 'read %d of %d bytes fails' % (number, most), got)


def write_errors(number, made):
    """The errors with which write number `number` of so many fails: at the first and the last all of them, else one."""
    return WRITE_ERRORS if number in (0, made - 1) else WRITE_ERRORS[:1]


def after_a_failed_write(tool, it, what, got):
    """What isn't as it has to be where a write of standard output failed."""
    yield from it.differences(what, got, program.NO_WRITE)
    if not program.is_front(got.out, it.want.out):
        yield '%s, %s, %s: what was written is no proper prefix' % (it.name, program.named(it.words), what)
    if program.named(it.words) == 'save' or program.passes_on(it.words):
        runs = program.Runs(tool)
        runs.give(got.out)
        if runs.answer(['verify']).status != program.REFUSED:
            yield '%s, %s, %s: what was written is accepted' % (it.name, program.named(it.words), what)


def writes(tool, faults):
    """Each write of standard output fails in turn."""
    for it in every_writing(tool, faults):
        for number in range(it.made.outs):
            for error in write_errors(number, it.made.outs):
                got = it.answer(out='%d %d' % (number, error))
                yield from after_a_failed_write(tool, it, 'write %d fails by %d' % (number, error), got)


def writes_of_pieces(tool, faults):
    """The same where each write takes few bytes: exactly those of the writes before are there."""
    for it in every_writing(tool, faults):
        for most in (1, max(1, len(it.want.out) // PLACES)) if it.want.out else ():
            made = it.calls_made(write_most=most).outs
            places = {*range(0, made, max(1, made // PLACES)), made // 2, made - 1} if made else ()
            for number in sorted(places):
                what = 'write %d of %d bytes fails' % (number, most)
                got = it.answer(out='%d %d' % (number, errno.ENOSPC), write_most=most)
                yield from after_a_failed_write(tool, it, what, got)


def reports(tool, faults):
    """Each write of the line fails in turn: a line that says what was found gives status 4, any other changes no status."""
    for it in (*every(tool, faults), *every_refused(tool, faults)):
        status = program.WRITE_FAULT if it.want.status == program.DONE else it.want.status
        for number in range(it.made.reports):
            for error in write_errors(number, it.made.reports):
                what = 'write %d of the line fails by %d' % (number, error)
                got = it.answer(report='%d %d' % (number, error))
                yield from it.differences(what, got, it.want._replace(status=status, report=None))
                if not program.is_front(got.report, it.want.report):
                    yield '%s, %s, %s: the line is %r' % (it.name, program.named(it.words), what, got.report)


def reports_of_faults(tool, faults):
    """The line of a read, a write or an allocation that failed fails too."""
    full, fault = '0 %d' % errno.ENOSPC, '0 %d' % errno.EIO
    for it in every(tool, faults):
        if it.made.reads:
            got = it.answer(read=fault, report=full)
            yield from it.differences('the read and the line fail', got, program.NO_READ._replace(report=b''))
        if it.made.outs:
            got = it.answer(out=fault, report=full)
            yield from it.differences('the write and the line fail', got, program.Answer(program.WRITE_FAULT, b'', b''))
        got = it.answer(allocation='0 1000000000', report=full)
        yield from it.differences('memory and the line fail', got, program.NO_MEMORY._replace(report=b''))


def short(tool, faults):
    """Reads and writes of few bytes at once change nothing."""
    for it in (*every(tool, faults), *every_refused(tool, faults)):
        for most in SHORT:
            for chosen in ({'read_most': most}, {'write_most': most}, {'read_most': most, 'write_most': most}):
                yield from it.differences('at most %d bytes at once' % most, it.answer(**chosen), it.want)


def shrinking(tool, faults):
    """A file that is cut while it is read is judged as it then is. Of one that is read by place the size is asked for once: what is
    gone then can't be read, where it is asked for."""
    for it in every(tool, faults):
        data = it.data if program.reads_by_place(it.words) else os.pread(it.runs.files[0], it.made.bytes_read, 0)
        most = max(1, len(data) // 10)
        for number in range(1, 10) if data else ():
            for left in (0, number * most, number * most + most // 2):
                it.runs.give(data)
                got = it.answer(read_most=most, shrink='%d %d' % (number, left))
                what = 'cut to %d bytes at read %d' % (left, number)
                if not program.reads_by_place(it.words):
                    yield from it.differences(what, got, program.wanted(it.words, data[:max(left, number * most)]))
                elif got.status == program.READ_FAULT:
                    yield from after_a_failed_read(it, what, got)
                else:
                    yield from it.differences(what, got, it.want)


# ---- what a system does of itself

def run(tool, words, **streams):
    """An answer by streams that are given; standard output and error are pipes where none is. Signals are as a shell has
    them."""
    streams = {'stdin': subprocess.DEVNULL, 'stdout': subprocess.PIPE, 'stderr': subprocess.PIPE, **streams}
    ended = subprocess.run([tool, *words], check=False, **streams)
    return program.Answer(ended.returncode, ended.stdout or b'', ended.stderr or b'')


def closed(number):
    return lambda: os.close(number)


def unreadable(tool, words, data):
    """By what it is, the bytes that come of standard input that can't be read, or not to its end, and the answer."""
    folder = os.open(program.HERE, os.O_RDONLY)
    yield 'a folder', b'', run(tool, words, stdin=folder)
    os.close(folder)
    with open('/dev/null', 'wb') as sink:
        yield 'a file for writing', b'', run(tool, words, stdin=sink)
    yield 'closed', b'', run(tool, words, stdin=None, preexec_fn=closed(0))
    ours, its = socket.socketpair()
    front = data[:its.send(data[:len(data) // 2])]
    ours.send(b'never read by its peer')
    its.close()
    yield 'a socket whose other end is gone', front, run(tool, words, stdin=ours)
    ours.close()
    ours, its = os.pipe()
    os.set_blocking(ours, False)
    yield 'a pipe that has nothing yet', b'', run(tool, words, stdin=ours)
    front = data[:os.write(its, data[:min(len(data) // 2, 4096)])]
    yield 'a pipe that has no more yet', front, run(tool, words, stdin=ours)
    os.close(ours), os.close(its)


def real_reads(tool, faults):
    for name, words, data in program.forms(tool):
        for what, front, got in unreadable(tool, words, data) if data else ():
            for why in program.differences(got, program.no_read(words, front)):
                yield '%s, %s, standard input is %s: %s' % (name, program.named(words), what, why)


def writer_dies(tool, faults):
    """A pipe whose writer ends: the input ends there."""
    for name, words, data in program.forms(tool):
        for share in (0.0, 0.3, 0.7) if data else ():
            front = data[:int(share * len(data))]
            got = program.Answer(*program.examples.piped(tool, words, [front]))
            for why in program.differences(got, program.wanted(words, front)):
                yield '%s, %s, %d bytes from a pipe: %s' % (name, program.named(words), len(front), why)


def full_after(length):
    """Files may have so many bytes; a write beyond fails, by no signal."""
    def limit():
        signal.signal(signal.SIGXFSZ, signal.SIG_IGN)
        resource.setrlimit(resource.RLIMIT_FSIZE, (length, length))
    return limit


def limited_files(tool, faults):
    """A file that takes so many bytes and no more: exactly these are there."""
    for it in every_writing(tool, faults):
        size = len(it.want.out)
        for length in sorted({0, 1, size // 3, size // 2, size - 1}) if size else ():
            with tempfile.TemporaryFile() as out:
                got = run(tool, it.words, stdin=it.input(), stdout=out, preexec_fn=full_after(length))
                got = got._replace(out=os.pread(out.fileno(), size + 1, 0))
            what = 'a file of %d bytes' % length
            yield from after_a_failed_write(tool, it, what, got)
            if len(got.out) != length:
                yield '%s, %s, %s: %d bytes are there' % (it.name, program.named(it.words), what, len(got.out))


def left_after(tool, it, length):
    """Reads so many bytes of a small pipe into which the program writes, and closes it."""
    ours, its = os.pipe()
    fcntl.fcntl(its, fcntl.F_SETPIPE_SZ, 4096)
    started = subprocess.Popen([tool, *it.words], stdin=it.input(), stdout=its, stderr=subprocess.PIPE)
    os.close(its)
    out, part = b'', b'some'
    while part and len(out) < length:
        part = os.read(ours, length - len(out))
        out += part
    os.close(ours)
    report = started.stderr.read()
    started.stderr.close()
    return program.Answer(started.wait(), out, report)


def closed_pipes(tool, faults):
    """A pipe whose reader goes away, at once or after some bytes; no signal ends the program."""
    for it in every(tool, faults):
        size = len(it.want.out)
        for length in sorted({0, 1, size // 2, size - 8193}) if size > 8193 else ():
            got = left_after(tool, it, length)
            yield from after_a_failed_write(tool, it, 'a pipe closed after %d bytes' % length, got)
        if size:
            got = run(tool, it.words, stdin=it.input(), preexec_fn=closed(1))
            yield from after_a_failed_write(tool, it, 'standard output is closed', got)


BY_FAULTS = (
    ('nothing fails', nothing_fails), ('each read fails', reads), ('each read of a few bytes fails', reads_of_pieces),
    ('each write fails', writes), ('each write of the line fails', reports), ('a file that shrinks', shrinking))
# With memory that fails, or with so many calls that to trace them takes minutes.
BY_THE_LIBRARY = (
    ('each write of a few bytes fails', writes_of_pieces), ('the line of a fault fails', reports_of_faults),
    ('short reads and writes', short))
BY_THE_SYSTEM = (
    ('standard input that cannot be read', real_reads), ('a pipe whose writer dies', writer_dies), ('a full disk', limited_files),
    ('a pipe whose reader dies', closed_pipes))
