"""Each check comes to what it came to by `rgca check`, at thirteen gateways with a fault of planted/twelve.py or none, and at
osmo-mgw (verdicts.txt)."""

import json
import os
import shutil
import subprocess
import sys
from pathlib import Path

import pytest

from gateways import DOMAIN, Osmo
from planted.site import LINES, Site
from planted.twelve import LINES as MANY
from planted.twelve import TWELVE

BENCH = Path(__file__).resolve().parents[1]
LETTERS = {"pass": ".", "FAIL": "F", "left open": "o", "not supported": "s", "not played": "-"}
# A whole run of the checks takes less, in seconds, on a machine that others load, too.
LONGEST = 900


def expected() -> dict[str, dict[str, str]]:
    """What each check comes to, by its name, at each gateway."""
    rows = [line.split() for line in (BENCH / "tests" / "verdicts.txt").read_text().splitlines() if not line.startswith("#")]
    _, *names = rows[0]
    return {name: {check: letters[at] for check, letters in rows[1:]} for at, name in enumerate(names)}


EXPECTED = expected()


def checked(words: list[str]) -> tuple[int, dict[str, str], str]:
    """The status of rgw-check, the letter of each check's verdict, and what it said on standard error."""
    command = [sys.executable, "-m", "rgw_bench.commands.check", *words, "--json"]
    ended = subprocess.run(command, capture_output=True, text=True, timeout=LONGEST, env=os.environ | {"PYTHONPATH": str(BENCH)})
    told = [json.loads(line) for line in ended.stdout.splitlines()]
    return ended.returncode, {it["name"]: LETTERS[it["result"]] for it in told if "name" in it}, ended.stderr


def test_the_expected_results_are_whole() -> None:
    """Fourteen gateways, and 144 checks at each."""
    assert [len(it) for it in EXPECTED.values()] == [144] * 14
    assert list(EXPECTED) == [*TWELVE, "osmo-mgw"]


def checked_at(name: str, folder: Path, wanted: list[str]) -> tuple[int, dict[str, str], str]:
    """The same of these checks at the gateway with this name, a fault or osmo-mgw."""
    only = ["--only", ",".join(wanted)]
    if name == "osmo-mgw":
        if not shutil.which(name):
            pytest.fail("there is no osmo-mgw: apt-get install osmo-mgw")
        osmo = Osmo(folder)
        try:
            return checked([*osmo.words(), *only])
        finally:
            osmo.close()
    with Site(folder, MANY, is_everywhere=False) as site:
        site.proxy.fault = TWELVE[name]()
        places = [word for it in ("own", "hook") for word in (f"--{it}", "%s:%d" % getattr(site, it))]
        lines = ["--line", LINES[0], "--more-lines", LINES[1]]
        return checked(["%s:%d" % site.gateway, "--domain", DOMAIN, *lines, *places, "--slow", *only])


@pytest.mark.live
@pytest.mark.parametrize("name", EXPECTED)
def test_verdicts(name: str, tmp_path: Path) -> None:
    """The verdict of each check is that of `rgca check`."""
    wanted = EXPECTED[name]
    status, came, said = checked_at(name, tmp_path, list(wanted))
    other = {check: f"{letter} in place of {wanted[check]}" for check, letter in came.items() if letter != wanted.get(check)}
    assert status == int("F" in wanted.values()), said
    assert len(came) == len(wanted) and not other
