"""Many files, one after another or several at once: what is said of each in the order of their names, and the count at the end."""
import collections

from front import errors, program
from front.progress import LINE

TYPE_CHECKING = False                                # a checker of types takes it for true; typing itself is slow to load
if TYPE_CHECKING:
    from concurrent.futures import Future
    from typing import Callable, Deque, Dict, Iterable, Iterator, Tuple

    from front.verdict import Verdict
    Judge = Callable[[str], Verdict]


def verdicts(names: 'Iterable[str]', at_once: int, judge: 'Judge', doing: str = 'checking') -> 'Iterator[Verdict]':
    """The verdict of each file, as a function of its name answers it, in the order of the names."""
    for done, (name, check) in enumerate(checks(LINE.begin(doing, names), at_once, judge)):
        LINE.at(done, name)
        yield check()


def checks(names: 'Iterable[str]', at_once: int, judge: 'Judge') -> 'Iterator[Tuple[str, Callable[[], Verdict]]]':
    """Each name with a function that answers its verdict. Where several are checked at once, a few more are begun."""
    if at_once == 1:
        yield from ((name, lambda name=name: judge(name)) for name in names)
        return
    from concurrent.futures import ThreadPoolExecutor
    begun, pool = collections.deque(), ThreadPoolExecutor(at_once)  # type: Deque[Tuple[str, Future[Verdict]]], ThreadPoolExecutor
    try:
        for name in names:
            begun.append((name, pool.submit(judge, name)))
            if len(begun) > 4 * at_once:
                first, found = begun.popleft()
                yield first, found.result
        yield from ((name, found.result) for name, found in begun)
    except BaseException as why:                     # a signal, or who reads the lines is gone
        program.RUNNING.end(why)
        for _, waiting in begun:
            waiting.cancel()
        pool.shutdown(wait=False)
        raise
    pool.shutdown()


def count_of(counts: 'Dict[str, int]') -> str:
    """How many files there were of each result, the first one also where there was none."""
    first = next(iter(counts))
    told = ['%d %s' % (counts[result], result) for result in counts if counts[result] or result == first]
    total = sum(counts.values())
    return '%d %s: %s' % (total, 'file' if total == 1 else 'files', ', '.join(told))


def status_of(statuses: 'Iterable[int]') -> int:
    """Of all files' statuses that which says most of this machine; else whether one was refused."""
    return max(statuses, default=errors.OK)
