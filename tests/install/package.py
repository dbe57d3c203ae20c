"""Tests of bin/debian-package."""
import gzip
import hashlib
import os
import re
import shutil

import places
from places import PATH, PROGRAMS, TOP, Copy, check_of, copy_and_prefix, folder, read, refused, run, skipped, tree, wanted, write
from prefix import place_in, works

NAME = 'mig-tool'
EPOCH_VERSION = read(TOP, 'VERSION').strip() + '+git20261129130154.unknown-1'  # of the copy, which is no clone, with the time that places.py gives
FOUND = {}                                           # the package, built once for all tests that look at it


def built(top):
    """The path of the package, in a folder."""
    if not FOUND:
        with folder() as own:
            status, out, err = Copy(own).package(own)
            if status or err:
                raise AssertionError('debian-package answers %d, %r' % (status, err))
            FOUND['name'] = os.path.basename(out.strip())
            with open(out.strip(), 'rb') as file:
                FOUND['data'] = file.read()
    path = os.path.join(top, FOUND['name'])
    with open(path, 'wb') as file:
        file.write(FOUND['data'])
    return path


def field(package, name):
    return run('dpkg-deb', '-f', package, name)[1].strip()


def fields():
    """What it says of itself."""
    here = run('dpkg', '--print-architecture')[1].strip()
    with folder() as top:
        package = built(top)
        yield from wanted(os.path.basename(package), '%s_%s_%s.deb' % (NAME, EPOCH_VERSION, here))
        for name, value in ('Package', NAME), ('Version', EPOCH_VERSION), ('Architecture', here), ('Recommends', 'xz-utils, zstd'):
            yield from wanted(field(package, name), value)
        depends = field(package, 'Depends').split(', ')
        if 'python3 (>= 3.6)' not in depends:
            yield 'depends on %r' % depends
        yield from wanted(sorted(it.split()[0] for it in depends), sorted({'python3', *libraries()}))
        yield from wanted(run('dpkg', '--validate-version', EPOCH_VERSION)[0], 0)


def libraries():
    """The packages of the libraries that the program names, as its own dynamic section and dpkg have them."""
    for path in re.findall(r'=> (/\S+)', run('ldd', places.TOOL, check_of(places.TOOL))[1]):
        names = path, os.path.realpath(path), '/usr' + path
        yield next(filter(None, (run('dpkg', '-S', name)[1].partition(':')[0] for name in names)))


def contents():
    """Each file that bin/install lays out, where packages have it, and what Debian asks for besides."""
    with folder() as top:
        package, root = built(top), os.path.join(top, 'root')
        copy = Copy(top)
        copy.install('--prefix', os.path.join(top, 'prefix'))
        yield from wanted(run('dpkg-deb', '-x', package, root)[0], 0)
        found, laid_out = tree(os.path.join(root, 'usr')), tree(os.path.join(top, 'prefix'))
        moved = {path.replace('zsh/site-functions', 'zsh/vendor-completions').replace('doc/mig', 'doc/' + NAME): what
                 for path, what in laid_out.items() if path != 'lib/mig/installed.json' and '__pycache__' not in path}
        for path, what in moved.items():
            if path.endswith('.1'):
                got = found.pop(path + '.gz', (0, b''))
                yield from wanted((path, gzip.decompress(got[1]), got[1][3:8]), (path, what[1], bytes(5)))
            else:
                yield from wanted((path, found.pop(path, None)), (path, what))
        documents = 'share/doc/' + NAME
        yield from wanted(set(found), {documents + '/copyright', documents + '/changelog.gz', documents + '/changelog.Debian.gz',
                                       'share/lintian', 'share/lintian/overrides', 'share/lintian/overrides/' + NAME})
        changes = gzip.decompress(found[documents + '/changelog.Debian.gz'][1]).decode()
        first, last = changes.splitlines()[0], changes.splitlines()[-1]
        yield from wanted(first, '%s (%s) unstable; urgency=medium' % (NAME, EPOCH_VERSION))
        yield from wanted(last.rpartition('  ')[2], 'Sun, 29 Nov 2026 13:01:54 +0000')
        if b'License: Apache-2.0\n' not in found[documents + '/copyright'][1]:
            yield 'the copyright file is %r' % (found[documents + '/copyright'],)
        with open(os.path.join(TOP, 'CHANGELOG.md'), 'rb') as document:
            yield from wanted(gzip.decompress(found[documents + '/changelog.gz'][1]), document.read())


def rights_and_owners():
    with folder() as top:
        listing = run('dpkg-deb', '-c', built(top))[1].splitlines()
        yield from wanted({line.split()[1] for line in listing}, {'root/root'})
        yield from wanted({line.split()[0] for line in listing}, {'drwxr-xr-x', '-rwxr-xr-x', '-rw-r--r--', 'lrwxrwxrwx'})
        programs = {line.split()[5] for line in listing if line.startswith('-rwx')}
        yield from wanted(programs, {'./usr/lib/mig/bin/' + name for name in PROGRAMS})


def times():
    """All are the one that was told, also where the clock is behind it."""
    with copy_and_prefix() as (copy, place):
        status, out, err = copy.package(place, environment={'SOURCE_DATE_EPOCH': '4000000000', 'TZ': 'UTC'})
        yield from wanted((status, err), (0, ''))
        listing = run('dpkg-deb', '-c', out.strip(), environment={'PATH': PATH, 'TZ': 'UTC'})[1].splitlines()
        yield from wanted({' '.join(line.split()[3:5]) for line in listing}, {'2096-10-02 07:06'})


def checksums():
    """md5sums has each file, and no other, with the checksum of its bytes."""
    with folder() as top:
        package = built(top)
        run('dpkg-deb', '-R', package, os.path.join(top, 'root'))
        listed = dict(reversed(line.split('  ')) for line in read(top, 'root', 'DEBIAN', 'md5sums').splitlines())
        shutil.rmtree(os.path.join(top, 'root', 'DEBIAN'))
        files = {path: what[1] for path, what in tree(os.path.join(top, 'root')).items() if isinstance(what, tuple)}
        yield from wanted(listed, {path: hashlib.md5(data).hexdigest() for path, data in files.items()})


def scripts():
    """They have the modules compiled by Debian's own commands, and do nothing in a root of their own, or without these."""
    with folder() as top:
        control, tools, called = (os.path.join(top, name) for name in ('control', 'tools', 'called'))
        run('dpkg-deb', '-e', built(top), control)
        os.mkdir(tools)
        for name in 'py3compile', 'py3clean':
            write('#!/bin/sh\necho "%s $*" >> "$CALLED"\n' % name, tools, name)
            os.chmod(os.path.join(tools, name), 0o755)
        cases = (
            ('postinst', 'configure', {}, 'py3compile -p mig-tool /usr/lib/mig\n'), ('postinst', 'abort-upgrade', {}, ''),
            ('prerm', 'remove', {}, 'py3clean -p mig-tool /usr/lib/mig\n'), ('prerm', 'remove', {'DPKG_ROOT': top}, ''),
            ('postinst', 'configure', {'DPKG_ROOT': top}, ''), ('postinst', 'configure', {'PATH': '/nowhere'}, ''),
        )
        for name, word, more, want in cases:
            write('', called)
            yield from wanted(run(os.path.join(control, name), word, environment={'PATH': tools, 'CALLED': called, **more}), (0, '', ''))
            yield from wanted((name, word, more, read(called)), (name, word, more, want))


def same_bytes():
    """Two builds are the same, whenever and by whom they are made."""
    with folder() as top:
        first = built(top)
        os.mkdir(os.path.join(top, 'again'))
        other = Copy(os.path.join(top, 'again'))
        for name in os.listdir(os.path.join(other.top, 'front')):
            os.utime(os.path.join(other.top, 'front', name), (1, 1))
        surroundings = {'TZ': 'Asia/Tokyo', 'LC_ALL': 'C.UTF-8', 'LANG': 'de_DE.UTF-8'}
        status, out, err = other.package('there', cwd=top, umask=0o077, environment=surroundings)
        yield from wanted((status, err), (0, ''))
        with open(first, 'rb') as one, open(os.path.join(top, out.strip()), 'rb') as two:
            if one.read() != two.read():
                yield 'the bytes differ'


def of_the_last_commit():
    """In a clone time and version are those of the last commit."""
    told = run('git', '-C', TOP, 'log', '-1', '--format=%ct %h')[1].split()
    if not told:
        return skipped('a package of the last commit', "this is no clone, or git isn't installed")
    with folder() as top:
        status, out, err = run(os.path.join(TOP, 'bin', 'debian-package'), '--tool', places.TOOL, top)
        yield from wanted((status, err), (0, ''))
        date = run('date', '-u', '-d', '@' + told[0], '+%Y%m%d%H%M%S')[1].strip()
        if not field(out.strip(), 'Version').startswith('%s+git%s.%s' % (read(TOP, 'VERSION').strip(), date, told[1])):
            yield 'the version is %s' % field(out.strip(), 'Version')


def installed_and_removed():
    """By dpkg, in a root of its own: it works there, and nothing is left."""
    with folder() as top:
        copy, package, root = Copy(top), built(top), os.path.join(top, 'root')
        place = place_in(top, copy)
        copy.delete()
        for name in 'info', 'updates', 'triggers':
            os.makedirs(os.path.join(root, 'var', 'lib', 'dpkg', name))
        for name in 'status', 'available':
            write('', root, 'var', 'lib', 'dpkg', name)
        before = tree(root).keys()
        dpkg = 'dpkg', '--root=' + root, '--force-depends', '--force-bad-path', '--force-script-chrootless', '--log=/dev/null'
        if os.geteuid():
            skipped('dpkg --install', 'only root may do this; dpkg-deb -x unpacks instead')
            run('dpkg-deb', '-x', package, root)
            yield from works(os.path.join(root, 'usr'), place)
            return
        status, _, err = run(*dpkg, '--install', package)
        yield from wanted((status, 'error' in err), (0, False))
        yield from wanted(run(*dpkg, '--status', NAME)[1].split('\n')[1], 'Status: install ok installed')
        yield from works(os.path.join(root, 'usr'), place)
        yield from wanted(run(*dpkg, '--verify', NAME), (0, '', ''))
        status, _, err = run(*dpkg, '--purge', NAME)
        yield from wanted((status, 'error' in err), (0, False))
        yield from wanted({path for path in tree(root).keys() - before if not path.startswith('var/lib/dpkg')}, set())


def what_lintian_says():
    if not shutil.which('lintian', path=PATH):
        return skipped('lintian', "lintian isn't installed")
    with folder() as top:
        status, out, err = run('lintian', '--allow-root', '--fail-on', 'error', built(top), environment={'PATH': PATH, 'LC_ALL': 'C.UTF-8'})
        if status or re.search('^E: ', out, re.M):
            yield '%d, %r, %r' % (status, out, err)


def refusals():
    with copy_and_prefix() as (copy, place):
        script = os.path.join(copy.top, 'mig_tool')
        for path in script, os.path.join(copy.top, 'mig_check'):
            write('#!/bin/sh\n', path)
            os.chmod(path, 0o755)
        program = os.path.join(copy.top, 'bin', 'debian-package')
        yield from refused(run(program, place, environment={'PATH': PATH, 'SOURCE_DATE_EPOCH': '1'}), 125, 'no program is installed')
        yield from refused(copy.package(place, tool=script), 125, 'is no program of this machine')
        yield from refused(copy.package(place, environment={'SOURCE_DATE_EPOCH': 'x'}), 125, 'SOURCE_DATE_EPOCH')
        nowhere = {'SOURCE_DATE_EPOCH': '', 'GIT_CEILING_DIRECTORIES': os.path.dirname(copy.top)}
        yield from refused(copy.package(place, environment=nowhere), 125, 'neither a commit nor SOURCE_DATE_EPOCH')
        yield from refused(copy.package('/proc/mig'), 4, "can't be written")
        yield from wanted(os.path.exists(place), False)
        tools = os.path.join(copy.top, 'tools')
        os.mkdir(tools)
        for name in 'env', 'python3', 'dpkg', 'gzip', 'ldd', 'dpkg-query':
            os.symlink(shutil.which(name, path=PATH), os.path.join(tools, name))
        yield from refused(copy.package(place, environment={'PATH': tools}), 125, 'dpkg-deb is not installed')
        yield from wanted(copy.package('x', 'y')[0], 2)


TESTS = (
    fields, contents, rights_and_owners, times, checksums, scripts, same_bytes, of_the_last_commit,
    installed_and_removed, what_lintian_says, refusals,
)
