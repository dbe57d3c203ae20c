"""Programs that the test starts: each has a time limit, and is ended with all that it started where the test ends before."""
import ctypes
import os
import signal
import subprocess

from faults import Fault

LIBC = ctypes.CDLL(None)
PARENT_DEATH = 1                                     # prctl's PR_SET_PDEATHSIG


def ends_with_parent():
    """Asks the kernel to end this program where the test is killed."""
    LIBC.prctl(PARENT_DEATH, signal.SIGKILL)


def end_group(process):
    """Ends a program and all that it started."""
    try:
        os.killpg(process.pid, signal.SIGKILL)
    except ProcessLookupError:
        pass
    process.wait()


def answer(words, limit, **more):
    """Runs a program to its end: its status, and what it said on standard output and standard error."""
    process = subprocess.Popen(words, stdin=subprocess.DEVNULL, stdout=subprocess.PIPE, stderr=subprocess.PIPE,
                               start_new_session=True, preexec_fn=ends_with_parent, **more)
    try:
        out, err = process.communicate(timeout=limit)
    except BaseException:
        end_group(process)
        raise
    return process.returncode, out.decode(errors='replace'), err.decode(errors='replace')


def command(words, what, limit=3600, **more):
    """What a program said on standard output; a fault where it fails, or is missing, or takes too long."""
    try:
        status, out, err = answer(words, limit, **more)
    except FileNotFoundError:
        raise Fault('%s is missing: %s' % (words[0], what)) from None
    except subprocess.TimeoutExpired:
        raise Fault('%s: %s took more than %d s' % (what, words[0], limit)) from None
    if status:
        said = err.strip().splitlines() or ['status %d' % status]
        raise Fault('%s: %s' % (what, next((line for line in said if line.startswith('E: ')), said[-1])))
    return out
