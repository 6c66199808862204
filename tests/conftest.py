"""The suite's fixtures, and what is shown of a test that fails."""
import os
from collections.abc import Callable, Iterator
from pathlib import Path
from typing import Any

import pytest
from browser import Browser
from page import STUB, Page, as_it_stands
from rgw_bench.relay import Relay
from running import Bench, command


def pytest_report_header() -> list[str]:
    """Which programs are tested."""
    found = []
    for name in ("rgwd", "rgca", "rgw"):
        try:
            found.append(f"{name}: {' '.join(command(name))}")
        except LookupError as lack:
            found.append(str(lack))
    return found


@pytest.fixture
def bench(tmp_path: Path) -> Iterator[Bench]:
    """A folder in which programs are started; they end with the test."""
    made = Bench(tmp_path)
    yield made
    made.close()


@pytest.fixture
def relay() -> Iterator[Callable[..., Relay]]:
    """Starts relays, as `rgw_bench.relay.Relay` takes its words; they end with the test."""
    made: list[Relay] = []

    def started(*words: Any, **more: Any) -> Relay:
        made.append(Relay(*words, **more))
        made[-1].start()
        return made[-1]

    yield started
    for it in made:
        it.close()


@pytest.fixture(scope="session")
def browser(tmp_path_factory: pytest.TempPathFactory) -> Iterator[Browser]:
    """A browser, in whose pages nothing sounds."""
    made = Browser(tmp_path_factory.mktemp("browser"), as_it_stands() if os.environ.get("PAGE") else {})
    made.ask("Page.addScriptToEvaluateOnNewDocument", source=STUB)
    yield made
    made.end()


@pytest.fixture
def page(bench: Bench, browser: Browser, request: pytest.FixtureRequest) -> Iterator[Callable[..., Page]]:
    """Opens the page of a gateway with so many lines; it may complain about nothing."""
    yield lambda *words, **more: Page(bench, browser, *words, **more)
    if folder := os.environ.get("SHOTS"):
        browser.shoot(folder, request.node.name)
    browser.open("about:blank")
    assert not browser.faults()


@pytest.hookimpl(hookwrapper=True)  # type: ignore[misc]
def pytest_runtest_makereport(item: pytest.Item) -> Iterator[None]:
    """Adds what each program logged to the report of a test that fails."""
    outcome: Any = yield
    report = outcome.get_result()
    bench = getattr(item, "funcargs", {}).get("bench")
    if report.when == "call" and report.failed and bench:
        report.sections.extend(bench.logs())
