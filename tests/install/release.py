"""Tests of bin/release: what it ships, what it compares, what it packs."""
import os
import shutil
import tarfile

from front import resolve
from places import PATH, Copy, folder, read, refused, run, skipped, tree, wanted, write
from prefix import installed, works

EPOCH = {'PATH': PATH, 'SOURCE_DATE_EPOCH': '1795957314'}
NAME = 'mig-0.0.1-' + resolve.MACHINE
STATUSES = {'mig_tool': 7, 'mig_check': 8}            # of the programs that are linked here
RT = '#!/bin/sh\ncase $1 in version) echo a kit;; doc) echo %s/kit/START-HERE.md;; esac\n'


def release(copy, *words, environment=None, **more):
    return run(os.path.join(copy.top, 'bin', 'release'), *words, environment=environment or EPOCH, **more)


# ---- the tarball

def packed_in(top, **more):
    """A copy that ships a program, and its tarball."""
    copy = Copy(top)
    copy.ship()
    status, out, err = release(copy, '--tarball', os.path.join(top, 'packed'), **more)
    if (status, out, err) != (0, os.path.join(top, 'packed', NAME + '.tar.gz') + '\n', ''):
        raise AssertionError('release answers %r' % ((status, out, err),))
    return copy, out.strip()


def used_from_a_tarball():
    """Unpacked, it checks and installs; what is installed works where the unpacked folder is gone. It has no sources."""
    with folder() as top:
        copy, path = packed_in(top)
        copy.delete()
        with tarfile.open(path) as tar:
            tar.extractall(top)
        unpacked, place = os.path.join(top, NAME), os.path.join(top, 'elsewhere')
        shutil.copytree(os.path.join(unpacked, 'examples'), place)
        yield from wanted(run(os.path.join(unpacked, 'bin', 'mig'), 'check', 'three-frames.stream', cwd=place)[::2], (0, ''))
        with open(os.path.join(place, 'three-frames.stream'), 'rb') as stream:
            yield from wanted(run(os.path.join(unpacked, 'bin', 'mig_tool'), 'verify', stdin=stream)[:2], (0, ''))
            stream.seek(0)
            yield from wanted(run(os.path.join(unpacked, 'bin', 'mig_check'), stdin=stream)[:2], (0, ''))
        yield from wanted(run(os.path.join(unpacked, 'bin', 'mig'), '--version')[1].splitlines()[0], 'mig 0.0.1')
        yield from wanted([it for it in tree(unpacked) if it.startswith('crates') or it.endswith('.pyc')], [])
        prefix = os.path.join(top, 'prefix')
        yield from installed(run(os.path.join(unpacked, 'bin', 'install'), '--prefix', prefix), prefix)
        shutil.rmtree(unpacked)
        yield from works(prefix, place)


def what_is_in_a_tarball():
    """All is root's, and of the time that was told."""
    with folder() as top:
        _, path = packed_in(top, umask=0o077)
        with tarfile.open(path) as tar:
            entries = tar.getmembers()
        yield from wanted({(it.uid, it.gid, it.uname, it.gname, it.mtime) for it in entries}, {(0, 0, 'root', 'root', 1795957314)})
        yield from wanted({it.mode for it in entries}, {0o644, 0o755})
        yield from wanted({it.name.split('/')[0] for it in entries}, {NAME})
        names = [it.name.partition('/')[2] for it in entries]
        for name in 'LICENSE', 'CHANGELOG.md', 'VERSION', 'dist/MANIFEST', 'bin/install', 'docs/operators.md', 'front/main.py':
            if name not in names:
                yield 'there is no %s' % name


def same_tarball():
    """Wherever, whenever and by whomever it is packed."""
    with folder() as top:
        found = []
        for name, more in ('one', {}), ('two', {'umask': 0o077, 'environment': {**EPOCH, 'TZ': 'Asia/Tokyo'}}):
            os.mkdir(os.path.join(top, name))
            _, path = packed_in(os.path.join(top, name), **more)
            with open(path, 'rb') as file:
                found.append(file.read())
        if found[0] != found[1]:
            yield 'the bytes differ'


# ---- what is shipped

def with_object(top):
    """A copy with a stand-in for the kit, in which two object files were proved; nothing where there is no compiler."""
    copy = Copy(top)
    tools = os.path.join(copy.top, 'tools')
    os.makedirs(tools)
    os.makedirs(os.path.join(copy.top, 'kit', 'c'))
    write(RT % copy.top, tools, 'rt')
    os.chmod(os.path.join(tools, 'rt'), 0o755)
    for name in 'libos_c.a', 'liblibc_c.a':
        write('!<arch>\n', copy.top, 'kit', 'c', name)
    if not shutil.which('gcc', path=PATH):
        return None
    built = os.path.join(copy.top, 'out', 'built')
    os.makedirs(built)
    told = {'version': '0.0.1', 'machine': resolve.MACHINE, 'sources': resolve.Sources(copy.top).checksum(), 'kit': 'a kit',
            'origin': 'proved on this machine'}
    for name, status in STATUSES.items():
        program, made = os.path.join(built, name), os.path.join(built, name + '.o')
        write('int main(void) { return %d; }\n' % status, top, 'main.c')
        if run('gcc', '-c', 'main.c', '-o', made, cwd=top)[0]:
            return None
        write('#!/bin/sh\n', program)
        os.chmod(program, 0o755)
        told.update({name: resolve.sum_of_file(program), name + '.o': resolve.sum_of_file(made)})
    write(''.join('%s: %s\n' % it for it in told.items()), built, 'MANIFEST')
    return copy


def with_tools(copy):
    return {**EPOCH, 'PATH': os.path.join(copy.top, 'tools') + ':' + PATH}


def ships_what_was_proved():
    """The same bytes wherever, by whomever and on how many cores it is linked; and it starts without a loader."""
    with folder() as top:
        found, words = [], ['taskset', '-c', str(min(os.sched_getaffinity(0)))] if shutil.which('taskset') else []
        for name, front, more in ('one', [], {}), ('another place', words, {'umask': 0o077}):
            place = os.path.join(top, name)
            os.mkdir(place)
            copy = with_object(place)
            if not copy:
                return skipped('what bin/release links', "gcc isn't installed, or has no static C library")
            status, out, err = run(*front, os.path.join(copy.top, 'bin', 'release'), environment=with_tools(copy), **more)
            yield from wanted((status, err), (0, ''))
            shipped = {name: os.path.join(copy.top, 'dist', resolve.MACHINE, name) for name in STATUSES}
            yield from wanted(out, ''.join('dist/%s/%s, sha256 %s\n' % (resolve.MACHINE, name, resolve.sum_of_file(path))
                                           for name, path in shipped.items()))
            yield from wanted([run(path)[0] for path in shipped.values()], list(STATUSES.values()))
            found.append((*map(bytes_of, shipped.values()), read(copy.top, 'dist', 'MANIFEST')))
            for name in STATUSES:
                yield from checks(copy, name)
        if found[0] != found[1]:
            yield 'the bytes differ'
        if any(b'/lib64/ld-linux' in program for program in found[0][:2]):
            yield 'it names a loader'
        return None


def bytes_of(path):
    with open(path, 'rb') as file:
        return file.read()


def checks(copy, name):
    """What isn't so of --check, tried on one program: each byte of what is shipped, its sources, its number and its kit are looked at."""
    made = [os.path.join(copy.top, 'out', 'built', it + '.o') for it in STATUSES]
    shipped = os.path.join(copy.top, 'dist', resolve.MACHINE, name)
    told, tools = read(copy.top, 'dist', 'MANIFEST'), with_tools(copy)

    def check(status, says):
        got = release(copy, '--check', *made, environment=tools)
        if got[0] != status or got[1].count('\n') != 1 or says not in got[1] or got[2]:
            yield '--check answers %r, wanted %d and %r' % (got, status, says)

    yield from check(0, 'byte for byte what was proved and built here')
    with open(shipped, 'r+b') as file:
        file.seek(1000)
        byte = file.read(1)
        file.seek(1000)
        file.write(bytes([byte[0] ^ 1]))
    yield from check(1, 'is cut or changed')
    tampered = told.replace(told.split('\n%s: ' % name)[1][:64], resolve.sum_of_file(shipped))
    write(tampered, copy.top, 'dist', 'MANIFEST')
    yield from check(1, 'what is linked from it is not')
    for from_, to, status, says in (
            ('kit: a kit', 'kit: another kit', 3, 'was built by another kit'), ('linker: ', 'linker: another ', 3, 'is not linked again'),
            ('version: ', 'version: 1', 1, 'is of release 1'),
            ('%s.o: ' % name, '%s.o: 1' % name, 1, 'not that of the shipped ' + name),
            ('sources: ', 'sources: 1', 1, 'is of other sources')):
        write(tampered.replace(from_, to), copy.top, 'dist', 'MANIFEST')
        yield from check(status, says)
    with open(shipped, 'r+b') as file:
        file.seek(1000)
        file.write(byte)
    write(told, copy.top, 'dist', 'MANIFEST')
    yield from check(0, 'byte for byte')


def releases_that_cannot_be():
    with folder() as top:
        copy = Copy(top)
        yield from refused(release(copy), 125, 'bin/mig_tool --prove proves and builds it')
        yield from refused(release(copy, '--tarball'), 125, 'bin/release makes what is shipped')
        copy.ship()
        yield from refused(release(copy, '--tarball', '/proc/mig'), 4, '/proc/mig')
        yield from refused(release(copy, '--tarball', environment={'PATH': PATH}), 125, 'neither a commit nor SOURCE_DATE_EPOCH')
        yield from refused(release(copy, '--check', 'x', 'y'), 125, 'the command rt of the Rattle kit')
        yield from wanted(release(copy, '--check', 'x')[0], 2)
        yield from wanted(release(copy, 'x')[0], 2)


TESTS = used_from_a_tarball, what_is_in_a_tarball, same_tarball, ships_what_was_proved, releases_that_cannot_be
