"""A row of the table: a fault, the check that finds it, and what the failure has to say."""
from __future__ import annotations

from collections.abc import Callable
from dataclasses import dataclass

from .proxy import Fault

REFUSED, CREATE = "answers.check::unknown-verb", "answers.check::create"


@dataclass(frozen=True)
class Row:
    """`made` makes the fault that the sentence `does` tells; `check` finds it, `due` and `came` are in what its failure says.

    `is_new` says that the gateway begins just before the check, and so announces itself.
    """

    does: str
    made: Callable[[], Fault]
    check: str
    due: str
    came: str
    is_new: bool = False

    @property
    def name(self) -> str:
        """The sentence as a name without blanks."""
        return "-".join(self.does.replace(",", "").replace("'", "").lower().split())
