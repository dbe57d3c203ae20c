"""Tests of bin/install."""
import importlib.util
import json
import os
import re
import resource
import shutil

import places
from front import resolve
from places import COMPLETED, NOTHING, PROGRAMS, Copy, copy_and_prefix, folder, read, refused, run, shown, skipped, tree, wanted, write

LIST = os.path.join('lib', 'mig', 'installed.json')
HEADER = (b'Xen saved domain, xl format\n \0 \r' + bytes.fromhex('04030201 03000000 00000000 02000000') + b'{}')
OK_THREE = 'ok version 3 kind hvm frames 3 records 6\n'
OK_SMALLEST = 'ok version 3 kind hvm frames 0 records 3\n'


def installed(got, prefix):
    """What isn't so of an answer that all is installed."""
    yield from wanted(got, (0, 'mig, xl-stream, mig_tool, mig_check are installed in %s\n' % shown(os.path.join(prefix, 'bin')), ''))


def works(prefix, place):
    """What doesn't work of what is installed in a prefix, used from a place that has examples of its own."""
    def used(*words, **more):
        """As a shell runs what it found in the prefix: the first word is the name alone."""
        return run(*words, executable=os.path.join(prefix, 'bin', words[0]), cwd=place, environment=NOTHING, **more)
    with open(os.path.join(place, 'three-frames.stream'), 'rb') as stream:
        yield from wanted(used('mig_tool', 'verify', stdin=stream), (0, '', OK_THREE))
        stream.seek(0)
        yield from wanted(used('mig_check', stdin=stream), (0, '', OK_THREE))
    yield from wanted(used('mig', 'check', 'three-frames.stream'),
                      (0, 'three-frames.stream: libxc image: %s1 file: 1 ok\n' % OK_THREE, ''))
    save = os.path.join(place, 'guest.save')
    with open(os.path.join(place, 'smallest-hvm.stream'), 'rb') as stream, open(save, 'wb') as file:
        file.write(HEADER + stream.read())
    with open(save, 'rb') as file, open(os.path.join(place, 'behind'), 'wb') as behind:
        yield from wanted(used('xl-stream', stdin=file, stdout=behind)[::2], (0, ''))
    with open(os.path.join(place, 'behind'), 'rb') as stream:
        yield from wanted(used('mig_tool', 'verify', stdin=stream), (0, '', OK_SMALLEST))
    yield from wanted(used('mig', 'check', 'guest.save')[0], 0)
    status, out, err = used('mig', '--version')
    if status or err or not re.match(r'mig \d+\.\d+\.\d+\nmig_tool: sha256 [0-9a-f]{64}, .*\nmig_check: sha256 [0-9a-f]{64}, ', out):
        yield '--version answers %r' % ((status, out, err),)


def place_in(top, copy):
    """A folder with the examples of a copy."""
    place = os.path.join(top, 'elsewhere')
    shutil.copytree(os.path.join(copy.top, 'examples'), place)
    return place


# ---- installed, used, removed

def used_without_the_repository():
    """The repository is gone, the environment is empty, the working folder is another one; nothing is written by use."""
    with copy_and_prefix() as (copy, prefix):
        place = place_in(os.path.dirname(prefix), copy)
        yield from installed(copy.install('--prefix', prefix), prefix)
        before = tree(prefix)
        copy.delete()
        yield from works(prefix, place)
        yield from wanted(sorted(tree(prefix)), sorted(before))
        shutil.rmtree(os.path.join(prefix, 'lib', 'mig', 'front', '__pycache__'))  # as with another release of python3
        yield from works(prefix, place)
        yield from wanted([path for path in tree(prefix) if path not in before or path.endswith('.pyc')], [])
        for name, words in ('mig_tool', ['digest', 'three-frames.stream']), ('mig_check', ['check', 'three-frames.stream']):
            os.unlink(os.path.join(prefix, 'lib', 'mig', 'bin', name))
            says = 'lib/mig/bin/%s is not there: install it again' % name
            yield from refused(run(os.path.join(prefix, 'bin', 'mig'), *words, cwd=place), 125, says)


def moved():
    """Links and scripts find each other from where they are, so a prefix can be moved."""
    with copy_and_prefix() as (copy, prefix):
        place = place_in(os.path.dirname(prefix), copy)
        copy.install('--prefix', prefix)
        os.rename(prefix, prefix + ' moved')
        yield from works(prefix + ' moved', place)
        yield from wanted(copy.remove('--prefix', prefix + ' moved')[0], 0)
        yield from wanted(os.path.exists(prefix + ' moved'), False)


def nothing_left():
    """With the prefix that was made go the folders above it; of a prefix that was there all that stood in it stays."""
    with folder() as top:
        copy = Copy(top)
        before = tree(top)
        prefix = os.path.join(top, 'made', 'for it')
        yield from installed(copy.install('--prefix', prefix), prefix)
        yield from wanted(copy.remove('--prefix', prefix), (0, 'removed from %s\n' % prefix, ''))
        yield from wanted(tree(top).keys(), before.keys())
        os.makedirs(os.path.join(top, 'there', 'bin'))
        os.makedirs(os.path.join(top, 'there', 'share', 'man', 'man1'))
        write('of another', top, 'there', 'bin', 'other')
        prefix = os.path.join(top, 'there')
        before = tree(prefix)
        yield from installed(copy.install('--prefix', prefix), prefix)
        write('page', prefix, 'share', 'man', 'man1', 'other.1')
        yield from wanted(copy.remove('--prefix', prefix)[0], 0)
        yield from wanted(tree(prefix).keys(), before.keys() | {'share/man/man1/other.1'})
        yield from refused(copy.remove('--prefix', prefix), 1, 'nothing is installed in ')


def all_is_there():
    """Programs, pages and completions, with rights that don't hang on who installs; the list has each file."""
    with copy_and_prefix() as (copy, prefix):
        copy.install('--prefix', prefix, umask=0o077)
        found = tree(prefix)
        for name in PROGRAMS:
            yield from wanted(found['bin/' + name], '-> ../lib/mig/bin/' + name)
            yield from wanted(found['lib/mig/bin/' + name][0], 0o755)
            yield from wanted(found['share/man/man1/%s.1' % name][0], 0o644)
        for name in COMPLETED:
            for path in ('share/bash-completion/completions/%s', 'share/zsh/site-functions/_%s', 'share/fish/vendor_completions.d/%s.fish'):
                yield from wanted(found[path % name][0], 0o644)
        for name in os.listdir(os.path.join(places.TOP, 'systemd')):
            yield from wanted(found['lib/systemd/system/' + name][0], 0o644)
        yield from wanted([path for path in found if '.wants' in path], [])  # none is enabled
        yield from wanted({what for what in found.values() if isinstance(what, int)}, {0o755})
        files = {path for path, what in found.items() if not isinstance(what, int)}
        yield from wanted(set(json.loads(read(prefix, LIST))['files']), files - {LIST})
        for name in os.listdir(os.path.join(copy.top, 'front')):
            for path in 'lib/mig/front/' + name, importlib.util.cache_from_source('lib/mig/front/' + name):
                if name.endswith('.py') and path not in found:
                    yield '%s is missing' % path


def compiled_modules_are_those_of_the_sources():
    """A module that is changed by hand goes by its source, whatever its time is."""
    with copy_and_prefix() as (copy, prefix):
        copy.install('--prefix', prefix)
        path = os.path.join(prefix, 'lib', 'mig', 'front', 'text.py')
        before, text = os.stat(path), read(path)
        write(text.replace("'mig: '", "'MIG: '"), path)
        os.utime(path, ns=(before.st_atime_ns, before.st_mtime_ns))
        yield from wanted(run(os.path.join(prefix, 'bin', 'mig'), 'normalise', '/none', '/none')[::2],
                          (3, 'MIG: /none: fault: read: No such file or directory\n'))


def twice():
    with copy_and_prefix() as (copy, prefix):
        copy.install('--prefix', prefix)
        before = tree(prefix)
        yield from installed(copy.install('--prefix', prefix), prefix)
        yield from wanted(tree(prefix), before)
        yield from wanted(copy.remove('--prefix', prefix)[0], 0)
        yield from wanted(os.path.exists(prefix), False)


def newer():
    """What an earlier version had is replaced, and what the newer one hasn't is taken away."""
    with copy_and_prefix() as (copy, prefix):
        copy.install('--prefix', prefix)
        os.rename(os.path.join(copy.top, 'front', 'parts.py'), os.path.join(copy.top, 'front', 'pieces.py'))
        write('# changed\n', copy.top, 'front', 'many.py')
        yield from installed(copy.install('--prefix', prefix), prefix)
        there = os.listdir(os.path.join(prefix, 'lib', 'mig', 'front'))
        yield from wanted(('parts.py' in there, 'pieces.py' in there), (False, True))
        yield from wanted(read(prefix, 'lib', 'mig', 'front', 'many.py'), '# changed\n')
        yield from wanted(copy.remove('--prefix', prefix)[0], 0)
        yield from wanted(os.path.exists(prefix), False)


def below_a_destdir():
    """All stands below it, works there, and is removed from there."""
    with copy_and_prefix() as (copy, destdir):
        place = place_in(os.path.dirname(destdir), copy)
        prefix = os.path.join(destdir, 'opt', 'mig')
        yield from installed(copy.install('--destdir', destdir, '--prefix', '/opt/mig'), prefix)
        yield from wanted(os.listdir(destdir), ['opt'])
        yield from works(prefix, place)
        yield from wanted(copy.remove('--destdir', destdir, '--prefix', '/opt/mig')[0], 0)
        yield from wanted(os.path.exists(destdir), False)
        usual = os.path.join(destdir, 'usr', 'local')
        yield from installed(copy.install('--destdir', destdir), usual)


def names_that_are_hard():
    """Spaces, quotes, a dollar and a dash in front; the prefix is told from the working folder on."""
    for name in 'a b', "it's", '$HOME "x"', '-x', 'line\nbreak', os.fsdecode(b'\xff'):
        with folder() as top:
            copy = Copy(top)
            place, prefix = place_in(top, copy), os.path.join(top, name)
            yield from installed(copy.install('--prefix=' + name, cwd=top), prefix)
            yield from works(prefix, place)
            yield from wanted(copy.remove('--prefix=' + name, cwd=top)[0], 0)
            yield from wanted(os.path.exists(prefix), False)
            yield from refused(copy.remove('--prefix=' + name, cwd=top), 1, 'nothing is installed in ')


# ---- files of others

def somebody_elses_file():
    """Nothing is written over it, and nothing beside it; with --force it is."""
    for path in 'bin/mig', 'share/man/man1/mig.1', 'lib/mig/front/main.py':
        with copy_and_prefix() as (copy, prefix):
            os.makedirs(os.path.join(prefix, os.path.dirname(path)))
            write('of another', prefix, path)
            before = tree(prefix)
            yield from refused(copy.install('--prefix', prefix), 2, os.path.join(prefix, path) + ' is there already')
            yield from wanted(tree(prefix), before)
            yield from installed(copy.install('--prefix', prefix, '--force'), prefix)
            yield from wanted(copy.remove('--prefix', prefix)[0], 0)
            yield from wanted(tree(prefix).keys() - before.keys(), set())
            yield from wanted(os.path.lexists(os.path.join(prefix, path)), False)


def link_of_somebody_else():
    """A link is replaced itself, with --force; what it leads to stays."""
    with copy_and_prefix() as (copy, prefix):
        os.makedirs(os.path.join(prefix, 'bin'))
        write('of another', prefix, 'other')
        os.symlink('../other', os.path.join(prefix, 'bin', 'mig'))
        yield from refused(copy.install('--prefix', prefix), 2, 'is there already')
        yield from installed(copy.install('--prefix', prefix, '--force'), prefix)
        yield from wanted(read(prefix, 'other'), 'of another')
        os.unlink(os.path.join(prefix, 'bin', 'mig'))
        os.symlink('/nowhere', os.path.join(prefix, 'bin', 'mig'))
        yield from refused(copy.remove('--prefix', prefix), 1, 'bin/mig was changed since it was installed, and stays')


def folder_in_the_way():
    """No file is put in the place of a folder."""
    with copy_and_prefix() as (copy, prefix):
        os.makedirs(os.path.join(prefix, 'bin', 'mig'))
        before = tree(prefix)
        for words in [], ['--force']:
            yield from refused(copy.install('--prefix', prefix, *words), 2, os.path.join(prefix, 'bin', 'mig') + ' is there already')
            yield from wanted(tree(prefix), before)


def changed_since():
    """A file that was changed is left alone, by each without --force."""
    path = os.path.join('lib', 'mig', 'front', 'text.py')
    with copy_and_prefix() as (copy, prefix):
        copy.install('--prefix', prefix)
        write('changed', prefix, path)
        yield from refused(copy.install('--prefix', prefix), 2, 'text.py is there already')
        yield from refused(copy.remove('--prefix', prefix), 1, 'text.py was changed since it was installed, and stays')
        yield from wanted(sorted(tree(prefix)), ['lib', 'lib/mig', 'lib/mig/front', path])
        yield from installed(copy.install('--prefix', prefix, '--force'), prefix)
        write('changed', prefix, path)
        yield from wanted(copy.remove('--prefix', prefix, '--force')[0], 0)
        yield from wanted(os.path.exists(os.path.join(prefix, 'bin')), False)


def damaged_list():
    with copy_and_prefix() as (copy, prefix):
        copy.install('--prefix', prefix)
        write('of another', os.path.dirname(prefix), 'other')
        whole, before = read(prefix, LIST), tree(prefix).keys()
        for text in '', '{', '[]', '{"files": {}}', '{"files": {"../other": []}, "folders": []}', '{"files": {"/etc/x": []}, "folders": []}', \
                '{"files": {"bin/mig": 1}, "folders": []}', '{"files": {}, "folders": [1]}':
            write(text, prefix, LIST)
            for answer in copy.install('--prefix', prefix), copy.remove('--prefix', prefix), copy.remove('--prefix', prefix, '--force'):
                yield from refused(answer, 1, 'installed.json is damaged')
        yield from wanted(tree(prefix).keys(), before)
        yield from wanted(read(os.path.dirname(prefix), 'other'), 'of another')
        write(whole, prefix, LIST)
        yield from wanted(copy.remove('--prefix', prefix)[0], 0)


# ---- what can't be

def the_shipped_one():
    """It is installed where none was proved here and no program is named; `mig` and its own list tell where it's from."""
    with copy_and_prefix() as (copy, prefix):
        program = os.path.join(copy.top, 'bin', 'install')
        copy.ship()
        yield from installed(run(program, '--prefix', prefix), prefix)
        status, out, err = run(os.path.join(prefix, 'bin', 'mig'), '--version')
        told = ['%s: sha256 %s, built from commit 1234567, shipped' % (name, resolve.sum_of_file(os.path.join(prefix, 'bin', name)))
                for name in resolve.NAMES]
        yield from wanted((status, out.splitlines(), err), (0, ['mig 0.0.1', *told, 'kit: a kit'], ''))


def the_one_that_was_proved_here():
    with copy_and_prefix() as (copy, prefix):
        copy.ship(origin='proved on this machine')
        os.makedirs(os.path.join(copy.top, 'out'))
        os.rename(os.path.join(copy.top, 'dist'), os.path.join(copy.top, 'out', 'built'))
        for name in resolve.NAMES:
            os.rename(os.path.join(copy.top, 'out', 'built', resolve.MACHINE, name), os.path.join(copy.top, 'out', 'built', name))
        yield from installed(run(os.path.join(copy.top, 'bin', 'install'), '--prefix', prefix), prefix)
        out = run(os.path.join(prefix, 'bin', 'mig'), '--version')[1]
        if not out.splitlines()[1].endswith(', proved where it was installed from'):
            yield '--version answers %r' % out


def none_to_install():
    """It is said why; nothing is written."""
    with copy_and_prefix() as (copy, prefix):
        program = os.path.join(copy.top, 'bin', 'install')
        yield from refused(run(program, '--prefix', prefix), 125, 'no program is installed: no program is shipped with these sources')
        yield from refused(copy.install('--prefix', prefix, tool=os.path.join(copy.top, 'LICENSE')), 125, 'is no program')
        yield from refused(copy.install('--prefix', prefix, tool=copy.top), 125, 'is no program')
        shutil.copy(places.TOOL, os.path.join(copy.top, 'mig_tool'))
        yield from refused(copy.install('--prefix', prefix, tool=os.path.join(copy.top, 'mig_tool')), 125, 'mig_check is no program')
        copy.ship()
        write('changed', copy.top, 'crates', 'mig_tool', 'src', 'main.rt')
        yield from refused(run(program, '--prefix', prefix), 125, 'is of other sources')
        yield from wanted(os.path.exists(prefix), False)


def a_change_of_other_crates():
    """What the program doesn't stand on has no say in what is installed."""
    with copy_and_prefix() as (copy, prefix):
        copy.ship()
        os.makedirs(os.path.join(copy.top, 'crates', 'mig_test_format', 'src'))
        write('changed', copy.top, 'crates', 'mig_test_format', 'src', 'lib.rt')
        yield from installed(run(os.path.join(copy.top, 'bin', 'install'), '--prefix', prefix), prefix)


def a_program_that_was_changed():
    """It isn't run by `mig`, and no line but one is said; nor is another one run in its place."""
    with copy_and_prefix() as (copy, prefix):
        place = place_in(os.path.dirname(prefix), copy)
        mig = os.path.join(prefix, 'bin', 'mig')
        for name, words in ('mig_check', ['check', 'three-frames.stream']), ('mig_tool', ['show', 'three-frames.stream']):
            copy.install('--prefix', prefix)
            own = os.path.join(prefix, 'lib', 'mig', 'bin', name)
            os.truncate(own, os.path.getsize(own) - 1)
            yield from refused(run(mig, *words, cwd=place), 125, name + ' is cut or changed')
            copy.install('--prefix', prefix, '--force')
        manifest = read(prefix, 'lib', 'mig', 'MANIFEST')
        write(re.sub('mig_check: .*\n', '', manifest), prefix, 'lib', 'mig', 'MANIFEST')
        yield from refused(run(mig, 'check', 'three-frames.stream', cwd=place), 125, 'of another release: it has no mig_check')


def nothing_to_install():
    """A page that isn't there."""
    with copy_and_prefix() as (copy, prefix):
        os.unlink(os.path.join(copy.top, 'docs', 'mig.1'))
        yield from refused(copy.install('--prefix', prefix), 3, "docs/mig.1 can't be read: No such file or directory")
        yield from wanted(os.path.exists(prefix), False)


def without_rights(*words):
    """The words of a command that may write nothing of root's which its rights forbid; None where there are none."""
    if os.geteuid():
        return words
    if not shutil.which('setpriv'):
        return None
    return ('setpriv', '--bounding-set=-dac_override,-dac_read_search', '--inh-caps=-dac_override,-dac_read_search', *words)


def not_writable():
    """A prefix that is a file, one below it, one where no folder can be made, and folders without the right to write."""
    with copy_and_prefix() as (copy, prefix):
        write('', prefix)
        before = tree(os.path.dirname(prefix)).keys()
        for place in prefix, os.path.join(prefix, 'x'), '/proc/mig/x':
            yield from refused(copy.install('--prefix', place), 4, "can't be written: ")
        yield from wanted(tree(os.path.dirname(prefix)).keys(), before)
        os.unlink(prefix)
        os.makedirs(os.path.join(prefix, 'bin'))
        command = without_rights(os.path.join(copy.top, 'bin', 'install'), '--prefix', prefix)
        if not command:
            return skipped('a prefix without rights', "setpriv isn't installed")
        for closed in prefix, os.path.join(prefix, 'bin'):
            os.chmod(closed, 0o555)
            yield from refused(run(*command, '--tool', places.TOOL), 4, "can't be written: Permission denied")
            yield from wanted(sorted(tree(prefix)), ['bin'])
            os.chmod(closed, 0o755)
        yield from wanted(copy.install('--prefix', prefix)[0], 0)
        os.chmod(os.path.join(prefix, 'bin'), 0o555)
        yield from refused(run(*command, '--remove'), 4, "can't be written: Permission denied")
        os.chmod(os.path.join(prefix, 'bin'), 0o755)
        yield from wanted(copy.remove('--prefix', prefix)[0], 0)


def a_write_fails():
    """Where no file may be longer than 20000 bytes one of them can't be written; the list is there, so that a later call mends it,
    or takes away what was written."""
    def limit():
        resource.setrlimit(resource.RLIMIT_FSIZE, (20000, 20000))
    with copy_and_prefix() as (copy, prefix):
        for mend in copy.install, copy.remove:
            yield from refused(copy.install('--prefix', prefix, preexec_fn=limit), 4, "can't be written: File too large")
            yield from wanted(os.path.exists(os.path.join(prefix, LIST)), True)
            yield from wanted([path for path in tree(prefix) if path.endswith('.part')], [])
            yield from wanted(mend('--prefix', prefix)[0], 0)
            copy.remove('--prefix', prefix)
            yield from wanted(os.path.exists(prefix), False)


def words():
    with copy_and_prefix() as (copy, prefix):
        for given in ['x'], ['--prefix'], ['--prefix', ''], ['--unknown']:
            status, out, err = copy.install(*given)
            yield from wanted((status, out, 'usage: bin/install' in err), (2, '', True))
        status, out, err = run(os.path.join(copy.top, 'bin', 'install'), '--help')
        yield from wanted((status, err, '--destdir' in out), (0, '', True))


TESTS = (
    used_without_the_repository, moved, nothing_left, all_is_there, compiled_modules_are_those_of_the_sources,
    twice, newer, below_a_destdir, names_that_are_hard,
    somebody_elses_file, link_of_somebody_else, folder_in_the_way, changed_since, damaged_list,
    the_shipped_one, the_one_that_was_proved_here, none_to_install, a_change_of_other_crates, a_program_that_was_changed,
    nothing_to_install, not_writable, a_write_fails, words,
)
