"""`mig restore`, which front/write.py does."""
from front import write

TYPE_CHECKING = False                                # a checker of types takes it for true; typing itself is slow to load
if TYPE_CHECKING:
    from typing import Any


def offer(verbs: 'Any') -> None:
    words = write.offer(verbs, 'restore', 'write the image of a guest as it stands in a machine', with_toolstacks=False)
    words.add_argument('--base', metavar='N', help='the first machine frame, from 1 to 1099494850560 (1048576)')
