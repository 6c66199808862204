"""All scenarios of kind `scripts` through the library."""

from collections.abc import Callable
from pathlib import Path

from scenarios import play_folder

DATA = Path(__file__).resolve().parent.parent.parent / "crates" / "cases" / "data"


def titles() -> int:
    """How many scenarios the files of this kind have."""
    lines = [path.read_text().split("\n") for path in DATA.glob("*.txt")]
    return sum(line.startswith("= ") and not line.startswith("= piece ") for text in lines if text[0] == "scripts" for line in text)


def test_all_are_as_told(record_testsuite_property: Callable[[str, object], None]) -> None:
    played, left, failures = play_folder(DATA)
    record_testsuite_property("scenarios", f"{played} played, {len(failures)} not as told")
    for why, number in left.items():
        record_testsuite_property("scenarios", f"{number} not played: {why}")
    assert failures == []
    assert played + sum(left.values()) == titles() and sum(left.values()) < 10
