"""Standard input that is a file: the commands that read one by place answer what they answer of a pipe, wherever in the file their input
begins; and they leave the file where it stood."""
import errno
import os
import resource
import struct
import tempfile

import failing
import memory
import program

BEFORE = b'another\n'
FAR = (5 << 30) + 3                                  # beyond what 32 bits count
FARTHEST = (1 << 43) + 3                             # in a file of 8 TiB, of holes but for its end
FRAMES, ENOUGH = 4096, 8 << 20                       # 16 MiB of pages, and so much memory for the program
VERIFY = struct.pack('<II', 0xd, 0)


def by_place(tool):
    """Of each form of input that is read by place its name, the words of the command and the input."""
    return [it for it in program.forms(tool) if program.reads_by_place(it[1])]


def given_at(tool, words, data, at):
    """The answer to a file that has these bytes at a place, and holes before it, and where the file stands then."""
    with tempfile.TemporaryFile() as file:
        os.pwrite(file.fileno(), data, at)
        os.lseek(file.fileno(), at, os.SEEK_SET)
        got = failing.run(tool, words, stdin=file)
        return got, os.lseek(file.fileno(), 0, os.SEEK_CUR)


def as_from_a_pipe(tool):
    """Whole inputs, and such that are cut at some places."""
    for name, words, data in by_place(tool):
        for length in sorted({*range(0, len(data), max(1, len(data) // 50)), len(data)}):
            want = program.wanted(words, data[:length])
            for place in 0, len(BEFORE), FAR:
                got, _ = given_at(tool, words, data[:length], place)
                for why in program.differences(got, want):
                    yield '%s, %s, %d bytes at %d of a file: %s' % (name, program.named(words), length, place, why)


def is_left_where_it_stood(tool):
    """The place of the file isn't moved, and what is behind the input isn't taken."""
    for name, words, data in by_place(tool):
        want = program.wanted(words, data)
        for place in 0, len(BEFORE), FAR, FARTHEST:
            try:
                got, left = given_at(tool, words, data + b'more', place)
            except OSError as fault:                 # a file system of smaller files
                if place < FARTHEST or fault.errno != errno.EFBIG:
                    raise
                continue
            for why in program.differences(got, want):
                yield '%s, %s, with more behind it, at %d of a file: %s' % (name, program.named(words), place, why)
            if left != place:
                yield '%s, %s: the file stands at %d, and stood at %d' % (name, program.named(words), left, place)


def of_many_pages():
    """By name, words and an input whose pages take twice the memory that the program may have."""
    hvm, pv = memory.hvm(FRAMES), program.second.exercise.exercise(1, FRAMES)[0]
    again = memory.hvm(FRAMES, (VERIFY, *(memory.page_record(first) for first in range(0, FRAMES, 512))))
    for words in ['normalise'], ['restore', '4096']:
        yield 'HVM', words, hvm
    yield 'HVM, sent again behind a VERIFY', ['verify'], again
    for words in ['normalise'], ['restore', '4096'], ['verify'], program.loaded('walk-a-frame')['words'].split():
        yield 'PV', words, pv


def limited():
    resource.setrlimit(resource.RLIMIT_AS, (ENOUGH, ENOUGH))


def pages_are_not_kept(tool):
    """Of a file so little memory is enough, and from a pipe it isn't."""
    for name, words, data in of_many_pages():
        want = program.wanted(words, data)
        with tempfile.TemporaryFile() as file:
            file.write(data)
            file.seek(0)
            got = failing.run(tool, words, stdin=file, preexec_fn=limited)
        for why in program.differences(got, want):
            yield '%s, %s, of a file: %s' % (name, program.named(words), why)
        if not program.is_no_memory(words, program.with_limit(tool, words, data, ENOUGH), want):
            yield '%s, %s: from a pipe it was enough' % (name, program.named(words))
