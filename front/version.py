"""What `mig --version` says: of which release these sources are, and which programs run."""
import os
import subprocess

from front import errors, resolve

TYPE_CHECKING = False                                # a checker of types takes it for true; typing itself is slow to load
if TYPE_CHECKING:
    from typing import Dict, Iterator, Tuple


def lines() -> 'Iterator[str]':
    """The release, each program that runs and where it's from, and the kit that proved it."""
    found = {name: program(name) for name in resolve.NAMES}
    told = next((told for told, _ in found.values() if told), {})  # type: Dict[str, str]
    yield 'mig %s' % release(told)
    yield from ('%s: %s' % (name, line) for name, (_, line) in found.items())
    if told:
        yield 'kit: ' + told['kit']


def program(name: str) -> 'Tuple[Dict[str, str], str]':
    """What the manifest tells of the program of this name that runs, and a line on it."""
    if os.environ.get(name.upper()):
        return {}, 'the one that %s names' % name.upper()
    try:
        told = resolve.present(name).told
    except errors.NoProgram as none:
        return {}, 'none yet: %s' % none
    return told, 'sha256 %s, %s' % (told[name], told['origin'])


def release(told: 'Dict[str, str]') -> str:
    if not resolve.IS_REPOSITORY:
        return told.get('version', 'unknown')
    at = revision()
    return resolve.number() + (', revision ' + at if at else '')


def revision() -> str:
    """Name and day of the last commit, and whether anything was changed since."""
    told = said_by_git('log', '-1', '--format=%h of %cs')
    changed = said_by_git('status', '--porcelain', '--untracked-files=no')
    return told and told + (', with changes' if changed else '')


def said_by_git(*words: str) -> str:
    try:
        ended = subprocess.run(('git', '-C', resolve.TOP) + words, stdout=subprocess.PIPE, stderr=subprocess.DEVNULL, check=True)
        return ended.stdout.decode().strip()
    except (OSError, subprocess.CalledProcessError):
        return ''
