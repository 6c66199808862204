"""What takes hours, or the whole machine: edits that a check or a scenario must find, memory refused, load, tones under a flood."""
import shlex

import pytest
from running import TOP, ran

pytestmark = pytest.mark.nightly
# So long one may take, in s.
LONGEST = 8 * 3600.0


@pytest.mark.parametrize("script", [
    "tools/edits --today", "tools/played", "./refusals", "tools/faults/library", "tools/loads", "tools/live",
])
def test_script(script: str) -> None:
    """The script finds all as it must be."""
    status, out, said = ran(shlex.split(script), LONGEST, cwd=TOP)
    assert status == 0, (out + said)[-8000:]
