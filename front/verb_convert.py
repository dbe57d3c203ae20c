"""`mig convert`, which front/write.py does."""
from front import write

TYPE_CHECKING = False                                # a checker of types takes it for true; typing itself is slow to load
if TYPE_CHECKING:
    from typing import Any


def offer(verbs: 'Any') -> None:
    write.offer(verbs, 'convert', 'write the canonical stream of an old save, of Xen 4.5 or older')
