"""How a search ended."""
import enum
from typing import NamedTuple, Optional, Tuple

from find.model import Step


class Ending(enum.Enum):
    """Whether a state was found, was shown not to be there, or the search stopped before it could say."""
    FOUND = 0
    NONE = 1
    STOPPED = 3


class Outcome(NamedTuple):
    """How a search ended: the steps that lead to the state if there is one, what was done, and how often each command fired."""
    ending: Ending
    steps: Tuple[Step, ...] = ()
    done: str = ""  # in numbers, as "322 states"
    reason: str = ""  # why it stopped, or why its answer is not for all schedules
    fired: Optional[dict] = None  # by step; None if that is not known
