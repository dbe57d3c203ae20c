"""The suites of Debian whose Xen is tried, and how apt finds the packages of another suite than this machine's."""
import glob
import os
import re
from collections import namedtuple

from faults import Fault

# The name of a suite, the version of its Xen, the package with its device model, whether this Xen migrates PV guests live,
# and whether its `xl migrate --debug` sends all frames again behind a VERIFY record.
Suite = namedtuple('Suite', 'name xen device_model moves_pv verifies')

SUITES = {suite.name: suite for suite in (
    Suite('bullseye', '4.14', 'qemu-system-x86', True, False),
    Suite('bookworm', '4.17', 'qemu-system-xen', False, True),
    Suite('trixie', '4.20', 'qemu-system-xen', False, True),
)}

ONE_LINE = re.compile(r'(\s*deb\s+(?:\[[^]]*\]\s+)?\S+\s+)(\S+)(\s.*)')


def own():
    """The name of this machine's suite, of which the emulator is."""
    try:
        with open('/etc/os-release') as file:
            found = re.search(r'^VERSION_CODENAME="?(\w+)', file.read(), re.M)
    except FileNotFoundError:
        found = None
    if not found or found.group(1) not in SUITES:
        raise Fault('this machine is none of Debian %s' % ', '.join(SUITES))
    return found.group(1)


def renamed(name, suite):
    """The name of a suite of sources, such as bookworm-security, for another suite; None where it isn't this machine's."""
    front, hyphen, rest = name.partition('-')
    return suite + hyphen + rest if front == own() else None


def of_line(line, suite):
    """A line of sources.list, for another suite."""
    found = ONE_LINE.fullmatch(line)
    name = found and renamed(found.group(2), suite)
    return found.group(1) + name + found.group(3) if name else None


def of_stanza(stanza, suite):
    """A stanza of a file in sources.list.d, for another suite."""
    lines = [line for line in stanza.splitlines() if not line.startswith('#')]
    for at, line in enumerate(lines):
        if line.lower().startswith('suites:'):
            names = [renamed(name, suite) for name in line.split()[1:]]
            lines[at] = 'Suites: ' + ' '.join(name for name in names if name)
            return '\n'.join(lines) if any(names) else None
    return None


def sources_of(suite, folder='/etc/apt'):
    """This machine's own sources with the other suite in place of its own, by the files in which apt looks for them."""
    lines, stanzas = [], []
    for path in [os.path.join(folder, 'sources.list'), *sorted(glob.glob(os.path.join(folder, 'sources.list.d/*')))]:
        if not os.path.isfile(path):
            continue
        with open(path) as file:
            text = file.read()
        if path.endswith('.list'):
            lines += [of_line(line, suite) for line in text.splitlines()]
        elif path.endswith('.sources'):
            stanzas += [of_stanza(stanza, suite) for stanza in re.split(r'\n\s*\n', text)]
    found = {'sources.list': '\n'.join(filter(None, lines)), 'sources.list.d/debian.sources': '\n\n'.join(filter(None, stanzas))}
    if not any(found.values()):
        raise Fault("this machine's apt sources don't name %s, so that those of %s can't be made from them" % (own(), suite))
    return found
