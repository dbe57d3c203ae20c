"""The programs that the tests try, and how they say what they can't try here."""
import os
import re
import signal
import sys

TOP = os.path.dirname(os.path.dirname(os.path.abspath(__file__)))
if TOP not in sys.path:
    sys.path.insert(0, TOP)


def heed_signals():
    """What the tests start heeds each signal, also where these were ignored for the tests themselves, as under nohup."""
    for number in signal.SIGHUP, signal.SIGINT, signal.SIGTERM:
        if signal.getsignal(number) == signal.SIG_IGN:
            signal.signal(number, signal.SIG_DFL)


def fitting():
    """The path of the mig_tool that fits these sources, or None, and why there is none."""
    from front import errors, resolve
    try:
        return resolve.present(resolve.TOOL).path, ''
    except errors.NoProgram as none:
        return None, str(none)


def program(named=None):
    """The path of the mig_tool to try: the named one, else the one that fits these sources. Where there is none, that has
    failed, and the test ends."""
    path, why = (os.path.abspath(named), '%s is no program' % named) if named else fitting()
    return there(path, why)


def check_of(tool):
    """The path of the mig_check that was made with a mig_tool: beside it, or where `rt ci` has it."""
    path = re.sub('mig_tool(?=/out/mig_tool|[^/]*$)', 'mig_check', tool)
    return there(path, '%s is not there: dist has to ship both programs, and a built mig_tool has mig_check in its own place' % path)


def around(tool):
    """The environment in which bin/mig runs this mig_tool, and the mig_check that was made with it."""
    return {**os.environ, 'MIG_TOOL': tool, 'MIG_CHECK': check_of(tool)}


def there(path, why):
    """The path, where a program is there; else the test ends, and has failed."""
    if path and os.path.isfile(path) and os.access(path, os.X_OK):
        return path
    print(why or '%s is no program' % path)
    print('0 passed, 1 failed')
    sys.exit(1)


def skipped(what, why):
    print('skipped: %s: %s' % (what, why), flush=True)
