"""Each planted fault is found by the check that its row names, whose failure says what was sent, what came and what was due."""
from __future__ import annotations

import os
import re
import subprocess
import sys
from collections.abc import Iterable
from pathlib import Path

import pytest
from gateways import DOMAIN

from planted.faults import answered, unsaid
from planted.proxy import Out, number
from planted.rows import REFUSED, Row
from planted.site import LINES, Site
from planted.table import ROWS

pytestmark = pytest.mark.live
CHECKS = Path(__file__).parents[1] / "rgw_bench" / "checks"
# So long pytest may take, in s; and so late comes the answer of a gateway that always needs longer.
LONGEST, LAST_ANSWER = 600.0, 28.5


def always_pending(response: str) -> Iterable[Out]:
    """Provisional responses each 1.5 s, and at last the answer."""
    provisional = f"100 {number(response)} PENDING\r\n"
    return [Out(provisional, later=1.5 * at) for at in range(19)] + [Out(response, later=LAST_ANSWER)]


def played(site: Site, checks: Iterable[str], *more: str) -> subprocess.CompletedProcess[str]:
    """pytest's report of these checks at the site's gateway; `more` are further words."""
    places = {"--gateway": site.gateway, "--own": site.own, "--hook": site.hook}
    words = [it for name, (host, port) in places.items() for it in (name, f"{host}:{port}")]
    words += ["--domain", DOMAIN, "--line", LINES[0], "--more-lines", LINES[1], "--slow", *more]
    return subprocess.run(
        [sys.executable, "-m", "pytest", "-p", "no:cacheprovider", "-p", "rgw_bench.plugin", "-q", *words, *(CHECKS / it for it in checks)],
        capture_output=True, text=True, timeout=LONGEST, cwd=CHECKS, env={**os.environ, "PYTHONPATH": str(CHECKS.parents[1])},
    )


@pytest.mark.parametrize("row", ROWS, ids=[row.name for row in ROWS])
def test_found(row: Row, tmp_path: Path) -> None:
    """The check fails, and its failure tells it"""
    with Site(tmp_path) as site:
        if not row.is_new:
            site.answer_announcement()
        site.proxy.fault = row.made()
        ended = played(site, [row.check])
    report = ended.stdout + ended.stderr
    assert ended.returncode == 1, report
    lines = [line.strip() for line in ended.stdout.splitlines()]
    assert any(re.match(r"-?[0-9.]+ [>@]", line) for line in lines), f"what was sent or done\n{report}"
    for begin, said in (("! due: ", row.due), ("! came: ", row.came)):
        assert any(line.startswith(begin) and said in line for line in lines), f"{begin}{said}\n{report}"


def test_none_found_without_a_fault(tmp_path: Path) -> None:
    """What finds a fault passes at a gateway that has none"""
    checks = sorted({row.check for row in ROWS})
    with Site(tmp_path) as site:
        ended = played(site, checks)
    assert ended.returncode == 0, ended.stdout + ended.stderr
    # (each is played, and passes)
    assert re.search("(?m)^[0-9]+ passed in ", ended.stdout), ended.stdout


def test_a_start_without_an_announcement(tmp_path: Path) -> None:
    """A gateway that waits for its agent, but doesn't announce itself, can't be checked: the status is 3, and JUnit's file says why"""
    report = tmp_path / "report.xml"
    with Site(tmp_path) as site:
        site.proxy.fault = unsaid("RSIP", is_answered=False)
        ended = played(site, [REFUSED], f"--junitxml={report}")
    assert ended.returncode == 3, ended.stdout + ended.stderr
    assert "405, it waits for its call agent (no announcement (RSIP) in 30 s)" in report.read_text()


def test_a_gateway_that_always_needs_longer(tmp_path: Path) -> None:
    """A gateway that says 100 until 28.5 s costs no more than the time for the whole run, and what wasn't played is told"""
    with Site(tmp_path) as site:
        site.answer_announcement()
        site.proxy.fault = answered("ABCD", always_pending)
        ended = played(site, [REFUSED, "answers.check::verb-first"], "--gateway-timeout=12", "-rs")
    took = re.search(r"(?m)^2 skipped in ([0-9.]+)s", ended.stdout)
    assert took and float(took[1]) < LAST_ANSWER, ended.stdout + ended.stderr
    assert "the time for the whole run is over" in ended.stdout, ended.stdout


def test_rows_differ() -> None:
    """Each row has a name of its own"""
    assert len({row.name for row in ROWS}) == len(ROWS)
