"""With which rights unpackers and the proved programs run. They read strangers' files, so where mig runs as root they run as a user who
may do nothing (`nobody`, or whom --user names), without groups and capabilities. Threads of mig become this user and start all of
them, so that these have no other rights from their first instruction on; all other threads stay root's. They open what is
read and written, and the program gets it as an open file."""
import collections
import errno
import os
import stat
import sys
import threading

from front import errors
from front.text import shown

TYPE_CHECKING = False                                # a checker of types takes it for true; typing itself is slow to load
if TYPE_CHECKING:
    from typing import Any, Callable, Dict, List, Optional, Tuple

NOBODY = 'nobody'
KEPT = 'PATH', 'GLIBC_TUNABLES'                      # of the environment; a variable may tell an unpacker to do other things
# Calls of Linux on x86_64. The C library's own functions of these names change the rights of all threads.
NUMBERS = {'setgroups': 116, 'setresuid': 117, 'setresgid': 119, 'capget': 125, 'capset': 126, 'keyctl': 250}
KEEP_CAPABILITIES, SET_NO_NEW, GET_NO_NEW, AMBIENT = 8, 38, 39, 47  # of prctl
RAISE = 2                                            # of AMBIENT
READ_ALL = 2                                         # CAP_DAC_READ_SEARCH: to read each file, and look into each folder
VERSION_3 = 0x20080522                               # of capget and capset: two words for each set
STACK = 1 << 20                                      # bytes of a thread's; else it's as large as the limit of this process allows
JOIN_SESSION = 1                                     # of keyctl: to get an empty keyring, with the name NULL
NO_KEYRINGS = errno.ENOSYS, errno.EPERM              # a kernel that has none, or a container that lets nobody have some


# Who runs what is started.
User = collections.namedtuple('User', 'name uid gid')


def user_of(name: 'Optional[str]' = None) -> 'Optional[User]':
    """The user of this name, or nobody, as whom programs run; None where they keep the rights that mig has."""
    if 0 not in os.getresuid():
        if name is not None:
            raise errors.Refused(errors.USAGE, '--user is for root: who else runs mig has no other rights to give')
        return None
    import pwd
    try:
        found = pwd.getpwnam(name or NOBODY)
    except (KeyError, ValueError, OSError):
        raise errors.Refused(errors.USAGE, 'there is no user %s; --user names another one' % shown(name or NOBODY)) from None
    return User(found.pw_name, found.pw_uid, found.pw_gid) if found.pw_uid else None


def environment() -> 'Dict[str, str]':
    """All of the environment that is for programs."""
    return {**{name: os.environ[name] for name in KEPT if name in os.environ}, 'LC_ALL': 'C'}


class Kernel:
    """Calls of the system that python3 doesn't have, for the thread alone that makes them."""

    def __init__(self) -> None:
        try:
            import ctypes
        except ImportError as fault:                 # as in Debian's python3-minimal
            raise errors.NoProgram('python3 is not whole: %s; install all of it (Debian: python3)' % fault) from None
        self.types, self.library = ctypes, ctypes.CDLL(None, use_errno=True)
        self.library.syscall.restype = ctypes.c_long

    def call(self, name: str, *words: 'Any') -> int:
        """What a call answers. An OSError tells by its file name which one failed."""
        words = tuple(self.types.c_long(word) if isinstance(word, int) else word for word in words)
        if name == 'prctl':                          # the library's own is for one thread, too
            answer = self.library.prctl(*words)
        elif os.uname().machine != 'x86_64' or sys.maxsize < 1 << 32:
            raise OSError(errno.ENOSYS, os.strerror(errno.ENOSYS), name)
        else:
            answer = self.library.syscall(self.types.c_long(NUMBERS[name]), *words)
        if answer == -1:
            number = self.types.get_errno()
            raise OSError(number, os.strerror(number), name)
        return int(answer)

    def no_new(self) -> None:
        """No program gets more rights than the thread has that starts it, also none that is set-user-ID."""
        self.call('prctl', SET_NO_NEW, 1, 0, 0, 0)
        if self.call('prctl', GET_NO_NEW, 0, 0, 0, 0) != 1:
            raise OSError(errno.EPERM, 'the system did nothing', 'prctl')

    def capabilities(self) -> 'Any':
        """Of the low 32 capabilities the effective, the permitted and the inheritable ones, and then of the others."""
        found = (self.types.c_uint32 * 6)()
        self.call('capget', (self.types.c_uint32 * 2)(VERSION_3, 0), found)
        return list(found)

    def keep(self, kept: int, given: int) -> None:
        """Drops all capabilities but these, and none of them is in use; a program may be given those of the others."""
        self.call('capset', (self.types.c_uint32 * 2)(VERSION_3, 0), (self.types.c_uint32 * 6)(0, kept, given, 0, 0, 0))

    def become(self, user: User) -> int:
        """Becomes a user who has no groups, no keys of root's session, and no capability but perhaps READ_ALL, which isn't in use; which
        it keeps."""
        try:
            self.call('keyctl', JOIN_SESSION, None)
        except OSError as fault:
            if fault.errno not in NO_KEYRINGS:
                raise
        kept = self.capabilities()[1] & 1 << READ_ALL  # type: int
        self.call('prctl', KEEP_CAPABILITIES, 1, 0, 0, 0)
        self.call('setgroups', 0, None)
        self.call('setresgid', *[user.gid] * 3)
        self.call('setresuid', *[user.uid] * 3)
        self.keep(kept, 0)
        found = os.getresuid(), os.getresgid(), os.getgroups(), self.capabilities()
        if found != ((user.uid,) * 3, (user.gid,) * 3, [], [0, kept, 0, 0, 0, 0]):
            raise OSError(errno.EPERM, 'the system gave other ones', 'rights')
        return kept


class Starter:
    """A thread that has the rights of a user, or of its process where `user` is None, but gets no new ones; it calls functions."""

    def __init__(self, kernel: Kernel, user: 'Optional[User]') -> None:
        self.kernel, self.gives, self.kept, self.is_idle = kernel, False, 0, True
        self.wanted, self.ended = threading.Lock(), threading.Lock()
        self.function, self.answer, self.fault = None, None, None  # type: Any, Any, Optional[BaseException]
        self.wanted.acquire()
        self.ended.acquire()
        before = threading.stack_size(STACK)
        try:
            threading.Thread(target=self.work, daemon=True).start()
        finally:
            threading.stack_size(before)
        self.call(lambda: self.lower(user))

    def work(self) -> None:
        while self.wanted.acquire():
            try:
                self.answer, self.fault = self.function(), None
            except BaseException as fault:           # it is raised where the call was asked for
                self.fault = fault
            self.ended.release()

    def call(self, function: 'Callable[[], Any]') -> 'Any':
        """What a function answers that this thread calls."""
        self.function, self.is_idle = function, False
        self.wanted.release()
        self.ended.acquire()
        self.is_idle = True
        if self.fault:
            raise self.fault
        return self.answer

    def lower(self, user: 'Optional[User]') -> None:
        self.kernel.no_new()
        if user:
            self.kept = self.kernel.become(user)

    def give(self, is_given: bool) -> None:
        """Gives the next programs the right to read each file, or takes it from them; where it can't be given, they do without."""
        if is_given == self.gives or not self.kept:
            return
        self.kernel.keep(self.kept, self.kept * is_given)
        self.gives = is_given
        try:
            if is_given:
                self.kernel.call('prctl', AMBIENT, RAISE, READ_ALL, 0, 0)
        except OSError:                              # the kernel is older than 4.3
            pass

    def is_closed(self, fd: int) -> bool:
        """Whether the user may not open the file of a descriptor once more, as mig_tool and mig_check do with their standard input, so
        that they read only what they have to."""
        return bool(self.kept) and stat.S_ISREG(os.fstat(fd).st_mode) and not os.access('/proc/self/fd/%d' % fd, os.R_OK)


class Lowered:
    """The threads that start programs, as many as are asked at once. No program is started by one that didn't get its rights."""

    def __init__(self, user: 'Optional[User]') -> None:
        self.user, self.kernel, self.idle = user, Kernel(), []  # type: Optional[User], Kernel, List[Starter]
        self.found = {}  # type: Dict[str, Tuple[str, Tuple[int, ...]]]

    def call(self, function: 'Callable[[Starter], Any]') -> 'Any':
        """What a function answers that one of the threads calls. A handler of signals may come between, and call another."""
        try:
            starter = self.idle.pop()
        except IndexError:
            starter = self.made()
        try:
            return starter.call(lambda: function(starter))
        finally:
            if starter.is_idle:                      # else a signal came between
                self.idle.append(starter)

    def made(self) -> Starter:
        try:
            return Starter(self.kernel, self.user)
        except RuntimeError:                         # python3 could start no thread
            raise errors.Refused(errors.NO_MEMORY, 'no thread could be started: memory is short, or the limit of processes') from None
        except OSError as fault:
            why = '%s: %s' % (fault.filename, fault.strerror)
            raise errors.NoProgram('nothing is started: %s' % why if not self.user else 'nothing is started, since it would not run as %s: '
                                   '%s; with --user root it keeps the rights of root' % (shown(self.user.name), why)) from None

    def runnable(self, name: str) -> 'Tuple[str, Tuple[int, ...]]':
        """The path of a program for the user, and which open files that takes. One that lies where the user may not look is opened
        by root; of several of a name that of the first folder in PATH is taken, as ever."""
        if not self.user:
            return name, ()
        if name not in self.found:
            self.found[name] = self.looked_for(name)
        return self.found[name]

    def looked_for(self, name: str) -> 'Tuple[str, Tuple[int, ...]]':
        missed = errno.ENOENT
        for path in [name] if os.sep in name else [os.path.join(folder or os.curdir, name) for folder in os.get_exec_path()]:
            if not os.path.isfile(path):
                continue
            if self.may_run(path):
                return path, ()
            fd = os.open(path, os.O_RDONLY | os.O_CLOEXEC)
            if self.may_run('/proc/self/fd/%d' % fd):
                return '/proc/self/fd/%d' % fd, (fd,)
            os.close(fd)
            missed = errno.EACCES
        raise OSError(missed, os.strerror(missed))

    def may_run(self, path: str) -> bool:
        return bool(self.call(lambda _: os.access(path, os.X_OK)))
