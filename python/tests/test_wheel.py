"""The package as a wheel: made, installed apart, and used with the library that is in it."""

import os
import shutil
import subprocess
import sys
from importlib.util import find_spec
from pathlib import Path
from zipfile import ZipFile

import pytest

PYTHON = Path(__file__).resolve().parent.parent
USE = """
from importlib.metadata import version
from pathlib import Path
import rgw.library
from rgw.world import CONFIG
with rgw.Gateway(CONFIG, first=7) as gateway:
    print(Path(rgw.library.PATH).parent == Path(rgw.__file__).parent, gateway.tick(1)[0].data.split()[:2])
print(rgw.__version__ == version("rgw"), rgw.__version__.endswith("+unproved") == hasattr(rgw.library.LIBRARY, "rgw_unproved"))
"""


def run(*words: str | Path, **how: object) -> str:
    """What a command prints, which has to end well."""
    ended = subprocess.run([sys.executable, *words], capture_output=True, text=True, **how)  # type: ignore[call-overload]
    assert ended.returncode == 0, ended.stderr
    return str(ended.stdout)


@pytest.mark.skipif("RGW_LIBRARY" not in os.environ, reason="tools/python says which library goes in")
def test_a_wheel_has_the_library(tmp_path: Path) -> None:
    lacking = [module for module in ("pip", "setuptools", "wheel") if find_spec(module) is None]
    if lacking:
        pytest.skip(f"there is no {lacking[0]}")
    # What is made on the way lies beside the sources.
    shutil.copytree(PYTHON, tmp_path / "python", ignore=shutil.ignore_patterns("build", "*.egg-info", "__pycache__", "tests"))
    (tmp_path / "out").mkdir()
    shutil.copy(os.environ["RGW_LIBRARY"], tmp_path / "out" / "librgw.so.1")
    apart = ["--quiet", "--no-deps", "--no-index", "--disable-pip-version-check"]
    run("-m", "pip", "wheel", *apart, "--no-build-isolation", "--wheel-dir", tmp_path, tmp_path / "python")
    (wheel,) = tmp_path.glob("rgw-*-py3-none-*.whl")
    with ZipFile(wheel) as packed:
        assert {"librgw.so.1", "py.typed", "pytest_plugin.py"} <= {Path(name).name for name in packed.namelist()}
    run("-m", "pip", "install", *apart, "--target", tmp_path / "installed", wheel)
    rest = {name: value for name, value in os.environ.items() if name != "RGW_LIBRARY"}
    said = run("-c", USE, cwd=tmp_path, env={**rest, "PYTHONPATH": str(tmp_path / "installed")})
    assert said == "True [b'RSIP', b'8']\nTrue True\n"
