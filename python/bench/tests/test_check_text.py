"""Checks as text: how they read, and which texts are refused."""

import pytest

from rgw_bench import check_text
from rgw_bench.plugin import CHECKS

CHECK = """# A comment
= one | 3.5.1, profile | A rule
> AUEP {1} {line} MGCP 1.0
< 200|250 {1}
undo call

= two | 2.4 | Another
notified told {line} {1} *
wait 29000
act off
undo
act on
"""


def test_a_check_has_its_parts() -> None:
    """Head, steps, and what undoes it."""
    one, two = check_text.read(CHECK)
    assert (one.name, one.sections, one.rule, one.is_open, one.line) == ("one", ("3.5.1", "profile"), "A rule", True, 2)
    assert [str(it) for it in one.steps] == ["> AUEP {1} {line} MGCP 1.0", "< 200|250 {1}"]
    assert [str(it) for it in one.undo] == list(check_text.UNDO["call"])
    assert (two.needs, two.hears, two.announces, two.is_alone) == (("slow", "own", "telephone"), True, False, False)
    assert [(str(it), it.line) for it in two.undo] == [("act on", 12)]


@pytest.mark.parametrize("step, is_alone", [
    ("> AUEP {1} *@{domain} MGCP 1.0", True), ("> CRCX {1} $@{domain} MGCP 1.0", True), ("silence 500", True), ("restart", True),
    ("> AUEP {1} {line} MGCP 1.0", False), ("notified a * * *", False),
])
def test_which_checks_are_alone(step: str, is_alone: bool) -> None:
    """Those that speak of all lines or any, that want no answer at all, and that start the gateway anew."""
    check, = check_text.read(f"= a | 1 | b\n{step}\n")
    assert check.is_alone is is_alone


@pytest.mark.parametrize("text, why", [
    ("= a | 1 | b\nhello\n", "line 2: no step: hello"),
    ("= a | 1 | b\n< 20 {1}\n", "line 2: no step: < 20 {1}"),
    ("= a | 1 | b\nact jump\n", "line 2: no step: act jump"),
    ("= a | 1 | b\nsilence\n", "line 2: no step: silence"),
    ("= a | 1\n> x\n", "line 1: wanted `= NAME | SECTIONS | RULE`: = a | 1"),
    ("= a | 1 | b\n", "line 1: no steps: a"),
    ("> x\n", "line 1: before the first check: > x"),
    ("= a | 1 | b\n> x\nundo nothing\n", "line 3: wanted `undo` and lines, or one of call, request, both, telephone"),
    ("= a | 1 | b\n> x\n= a | 1 | b\n> x\n", "line 3: another check is called a"),
])
def test_texts_that_are_refused(text: str, why: str) -> None:
    """With the line, and what may stand there."""
    with pytest.raises(check_text.BadCheck) as fault:
        check_text.read(text)
    assert str(fault.value) == why


def test_the_checks_of_the_package_are_read() -> None:
    """144 of three files are those that `rgca check` had, and no name stands twice in all files."""
    files = {path.stem: check_text.read_file(path) for path in sorted(CHECKS.glob("*.check"))}
    assert [len(files[name]) for name in ("answers", "notices", "telephones")] == [109, 23, 12]
    names = [check.name for checks in files.values() for check in checks]
    assert len(names) == len(set(names))
