"""The text of the suite, and of the bench: Debian's mypy and flake8 find nothing."""
import os
from pathlib import Path

import pytest
from running import TOP, ran

FOLDERS = [("tests", "."), ("python/bench", "rgw_bench")]


@pytest.mark.parametrize("folder, part", FOLDERS)
def test_types(tmp_path: Path, folder: str, part: str) -> None:
    paths = {**os.environ, "MYPYPATH": f"{TOP}/python/bench"} if folder == "tests" else None
    status, out, _ = ran(["mypy", "--strict", "--cache-dir", str(tmp_path), part], cwd=TOP / folder, env=paths)
    assert status == 0, out


@pytest.mark.parametrize("folder, part", FOLDERS)
def test_layout(folder: str, part: str) -> None:
    status, out, _ = ran(["flake8", "--config", f"{TOP}/.flake8", part], cwd=TOP / folder)
    assert status == 0, out
