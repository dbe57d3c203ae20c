"""`mig normalise`, which front/write.py does."""
from front import write

TYPE_CHECKING = False                                # a checker of types takes it for true; typing itself is slow to load
if TYPE_CHECKING:
    from typing import Any


def offer(verbs: 'Any') -> None:
    write.offer(verbs, 'normalise', 'write the canonical stream of a guest: two saves of the same guest state become the same bytes')
