"""How ./test adds up what it runs."""
import subprocess
from pathlib import Path

import pytest
from running import TOP

# One that tells its sums, one that tells none, and one that passes.
ALL = ["sums printf '3 passed, 1 failed\\n'", "sums echo no sums", "sums printf '1 passed, 0 failed\\n'"]


def added(folder: Path, *lines: str) -> tuple[str, int]:
    """The last line and the status of ./test, where it runs this in place of the gate."""
    text = (TOP / "test").read_text()
    functions = text[text.index("# Adds the closing line of a file"):text.index("# The commands of the programs")]
    script = "\n".join([f"work={folder}", "passed=0", "failed=0", functions, *lines, "end"])
    ended = subprocess.run(["sh", "-c", script], capture_output=True, text=True)
    return ended.stdout.splitlines()[-1], ended.returncode


@pytest.mark.parametrize("lines, told, status", [
    (ALL, "4 passed, 2 failed", 1), (ALL[2:], "1 passed, 0 failed", 0),
    ([], "0 passed, 0 failed", 1), (["sums true"], "0 passed, 1 failed", 1),
    (["sums printf '0 passed, 0 failed\\n'"], "0 passed, 0 failed", 1),
])
def test_sums(tmp_path: Path, lines: list[str], told: str, status: int) -> None:
    """What tells no sums has failed, and so has a gate in which nothing passed."""
    assert added(tmp_path, *lines) == (told, status)


@pytest.mark.parametrize("counts, status, told", [
    ((4, 0, 0, 1), 0, "3 passed, 0 failed"), ((4, 1, 1, 0), 1, "2 passed, 2 failed"), ((0, 0, 0, 0), 5, "0 passed, 1 failed"),
    ((2, 0, 0, 2), 0, "0 passed, 1 failed"), ((2, 0, 0, 0), 2, "2 passed, 1 failed"), (None, 0, "0 passed, 1 failed"),
])
def test_sums_of_pytest(tmp_path: Path, counts: tuple[int, int, int, int] | None, status: int, told: str) -> None:
    """A suite of which no test passed has failed; so has one whose status says so, and one that wrote no report."""
    path = tmp_path / "said.xml"
    if counts:
        values = " ".join(f'{name}="{count}"' for name, count in zip(("tests", "failures", "errors", "skipped"), counts))
        path.write_text(f"<testsuites><testsuite {values}/></testsuites>")
    ended = subprocess.run([f"{TOP}/tools/sums", str(path), str(status)], capture_output=True, text=True)
    assert (ended.stdout.splitlines()[-1], ended.returncode) == (told, int(not told.endswith(" 0 failed")))
