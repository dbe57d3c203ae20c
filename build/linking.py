"""Links a program with nothing that it would have to find on a machine: the C library is inside."""
import os
import re
import shutil
import subprocess
import tempfile

from build.proving import NotBuilt

TYPE_CHECKING = False                                # a checker of types takes it for true
if TYPE_CHECKING:
    from build.proving import Kit

LINKER = 'gcc'
LIBRARIES = 'libos_c.a', 'liblibc_c.a'               # of the kit: what its std calls of the system


def link(kit: 'Kit', name: str, made: str, to: str) -> None:
    """Links an object file to the program of this name. Names and folders of this machine go nowhere into it."""
    with tempfile.TemporaryDirectory(prefix='mig-link-') as room:
        shutil.copy(made, os.path.join(room, name + '.o'))
        for library_name in LIBRARIES:
            shutil.copy(os.path.join(kit.folder, 'c', library_name), room)
        words = [LINKER, '-static', '-o', name, name + '.o'] + list(LIBRARIES)
        try:
            ended = subprocess.run(words, cwd=room, stdin=subprocess.DEVNULL, stdout=subprocess.PIPE, stderr=subprocess.STDOUT)
        except OSError as fault:
            raise NotBuilt('%s is not linked: %s: %s' % (name, LINKER, fault.strerror)) from None
        if ended.returncode:
            raise NotBuilt('%s is not linked: %s failed' % (name, LINKER), ended.stdout.decode(errors='replace').rstrip())
        shutil.copyfile(os.path.join(room, name), to)
    os.chmod(to, 0o755)


def first_line(*words: str) -> str:
    try:
        said = subprocess.run(words, stdin=subprocess.DEVNULL, stdout=subprocess.PIPE, stderr=subprocess.DEVNULL, check=True)
    except (OSError, subprocess.CalledProcessError):
        return ''
    return said.stdout.decode().partition('\n')[0].strip()


def linker() -> str:
    """What links here, with versions; nothing where it isn't installed."""
    return ', '.join(filter(None, (first_line(LINKER, '--version'), first_line('ld', '--version'))))


def library() -> str:
    """The C library that gets inside, with its version; nothing where it isn't installed."""
    try:
        with open(first_line(LINKER, '-print-file-name=libc.a'), 'rb') as archive:
            found = re.search(rb'GNU C Library \([^)]*\)', archive.read())
    except OSError:
        return ''
    return found[0].decode() if found else ''
