"""Folders, programs and trees for the tests of bin/install and bin/debian-package."""
import contextlib
import os
import re
import shutil
import stat
import subprocess
import sys
import tempfile

TOP = os.path.dirname(os.path.dirname(os.path.dirname(os.path.abspath(__file__))))
TOOL = None                                          # the mig_tool that is tried, with mig_check beside it; run sets it
sys.path[:0] = [TOP, os.path.join(TOP, 'tests')]
from build.words import CHECK_USAGE  # noqa: E402
from front import resolve  # noqa: E402
from front.text import shown  # noqa: E402,F401  (others have it from here)
from tried import check_of, program, skipped  # noqa: E402,F401

COPIED = 'bin', 'build', 'completions', 'docs', 'examples', 'front', 'systemd'
PROGRAMS = 'mig', *resolve.NAMES, 'xl-stream'
COMPLETED = 'mig', *resolve.NAMES
PATH = os.pathsep.join([os.path.dirname(sys.executable), '/usr/sbin', '/usr/bin', '/sbin', '/bin'])  # without the Rattle kit
STANDARD_PYTHON = any(os.access(os.path.join(folder, 'python3'), os.X_OK) for folder in ('/usr/local/bin', '/usr/bin', '/bin'))
NOTHING = {} if STANDARD_PYTHON else {'PATH': PATH}  # an environment as empty as one that has python3 can be


def run(*words, cwd='/', environment=None, **streams):
    """Status, standard output and standard error."""
    streams = {'stdin': subprocess.DEVNULL, 'stdout': subprocess.PIPE, 'stderr': subprocess.PIPE, **streams}
    ended = subprocess.run(words, cwd=cwd, env={'PATH': PATH} if environment is None else environment, check=False, **streams)
    return ended.returncode, (ended.stdout or b'').decode(errors='replace'), (ended.stderr or b'').decode(errors='replace')


def wanted(got, want):
    """What isn't as wanted."""
    if got != want:
        yield 'got %.600r, wanted %.600r' % (got, want)


def refused(got, status, says):
    """What isn't so of a refusal, which has this status and one line, in which these words stand."""
    if got[:2] != (status, '') or got[2].count('\n') != 1 or says not in got[2]:
        yield 'got %.600r, wanted status %d and a line with %r' % (got, status, says)


def tree(top):
    """All that is below a folder: rights, and the bytes of a file or the text of a link."""
    found = {}
    for folder, folders, files in os.walk(top):
        for name in folders + files:
            path = os.path.join(folder, name)
            mode = stat.S_IMODE(os.lstat(path).st_mode)
            if os.path.islink(path):
                what = '-> ' + os.readlink(path)
            elif os.path.isdir(path):
                what = mode
            else:
                with open(path, 'rb') as file:
                    what = mode, file.read()
            found[os.path.relpath(path, top)] = what
    return found


@contextlib.contextmanager
def folder():
    """A temporary folder."""
    with tempfile.TemporaryDirectory(prefix='mig install ') as made:
        yield made


class Copy:
    """A copy of what of the repository is installed, in a folder of its own; it has no program."""

    def __init__(self, top):
        self.top = os.path.join(top, 'repository')
        for name in COPIED:
            shutil.copytree(os.path.join(TOP, name), os.path.join(self.top, name), ignore=shutil.ignore_patterns('__pycache__'))
        for name in 'CHANGELOG.md', 'LICENSE', 'VERSION':
            shutil.copy(os.path.join(TOP, name), self.top)
        for name in resolve.NAMES:
            os.makedirs(os.path.join(self.top, 'crates', name, 'src'))
        write(''.join(name + ':\n' for name in resolve.NAMES), self.top, 'crates.txt')

    def ship(self, **more):
        """Ships programs of its sources."""
        place = os.path.join(self.top, 'dist', resolve.MACHINE)
        both_in(place, TOOL)
        sums = {name: resolve.sum_of_file(os.path.join(place, name)) for name in resolve.NAMES}
        told = {'version': '0.0.1', 'machine': resolve.MACHINE, **sums, 'sources': resolve.Sources(self.top).checksum(), 'kit': 'a kit',
                'origin': 'built from commit 1234567, shipped', **more}
        write(''.join('%s: %s\n' % it for it in told.items()), self.top, 'dist', 'MANIFEST')

    def install(self, *words, tool=None, **more):
        return run(os.path.join(self.top, 'bin', 'install'), '--tool', tool or TOOL, *words, **more)

    def remove(self, *words, **more):
        return run(os.path.join(self.top, 'bin', 'install'), '--remove', *words, **more)

    def package(self, *words, tool=None, **more):
        environment = {'PATH': PATH, 'SOURCE_DATE_EPOCH': '1795957314', **more.pop('environment', {})}
        return run(os.path.join(self.top, 'bin', 'debian-package'), '--tool', tool or TOOL, *words, environment=environment, **more)

    def delete(self):
        shutil.rmtree(self.top)


@contextlib.contextmanager
def copy_and_prefix():
    """A copy of the repository, and the path of a prefix that isn't there yet."""
    with folder() as top:
        yield Copy(top), os.path.join(top, 'prefix')


def both_in(place, tool):
    """Copies a mig_tool and the mig_check that was made with it into a folder; the path of mig_tool there."""
    os.makedirs(place, exist_ok=True)
    for name, path in (resolve.TOOL, tool), (resolve.CHECK, check_of(tool)):
        shutil.copy(path, os.path.join(place, name))
    return os.path.join(place, resolve.TOOL)


def read(*path):
    with open(os.path.join(*path), encoding='utf-8') as file:
        return file.read()


def write(text, *path):
    with open(os.path.join(*path), 'w', encoding='utf-8') as file:
        file.write(text)


# ---- what the sources have

def options_in(text):
    """The options that a help text of argparse lists, but -h, which each has."""
    found = set()
    for line in text.splitlines():
        if re.match(' {2}-', line):
            found.update(re.findall(r'(?<![\w-])--?[a-z0][\w-]*', line.strip().split('  ')[0]))
    return found - {'-h'}


def verbs():
    """The verbs of bin/mig and the options of each, as its help lists them, and the options without a verb."""
    mig = os.path.join(TOP, 'bin', 'mig')
    text = run(mig, '--help')[1]
    names = re.findall(r'^ {4}(\w+)', text.partition('VERB\n')[2], re.M)
    return {name: options_in(run(mig, 'help', name)[1]) for name in names}, options_in(text)


def commands():
    """The commands of mig_tool, each with its words, as its usage line has them."""
    usage = re.search(r'b"usage: (.*)\\n"', read(TOP, 'crates', 'mig_tool_report', 'src', 'outcome.rt'))[1]
    return {text.split()[0]: text for text in usage.split(' | ')}


def check_commands():
    """The commands of mig_check, as its usage line has them."""
    return set(re.findall(r'\[(\w+)\]', CHECK_USAGE))
