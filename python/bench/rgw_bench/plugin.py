"""pytest plays checks of a gateway: each check of a `*.check` file is a test, and `gw` is the gateway for checks in Python.

    pytest --pyargs rgw_bench.checks --gateway 127.0.0.1:2427 --domain gw1.example.net --line aaln/1 --more-lines aaln/2 \\
           --own 127.0.0.1:2727 [-k repeat] [-m 2.3.11] [-m "profile and 2.4"] [-n 4] [--junitxml FILE]

What the RFC leaves open is an xfail; what the gateway may leave out, and what can't be played, is skipped, each with its reason. The
words behind `--gateway` are there only with it, so that no other plugin's are in the way.
"""

import argparse
import time
from collections.abc import Generator
from dataclasses import dataclass
from pathlib import Path
from typing import Any

import pytest
from _pytest._code.code import ReprEntryNative, ReprExceptionInfo, ReprFileLocation, ReprTraceback

from . import check_text, mgcp, wire, workers
from .bench import Bench, Settings
from .check_text import NEEDS, Check
from .dialogue import Dialogue, undo_steps
from .gateway import Dead, NotMet, NotSupported, OutOfTime
from .player import Player

# (the fixtures of telephones)
pytest_plugins = ["rgw_bench.phones_fixture"]

BENCH = pytest.StashKey[Bench]()
LIMIT = pytest.StashKey[float | None]()
WORKERS = pytest.StashKey[workers.Workers]()
OUTCOME = pytest.StashKey["Outcome"]()
UNPLAYED = "not played: "
OVER = "the time for the whole run is over"
# What undoes a check may take so long where that time is over, in seconds.
UNDOING = 3.0
# The folder of the checks that come with the package.
CHECKS = Path(__file__).parent / "checks"


@dataclass
class Outcome:
    """What a report tells of a check besides what pytest has: the name, the rule, the verdict, what was due, and what was said."""

    name: str
    sections: tuple[str, ...]
    rule: str
    result: str = "not played"
    expected: str = ""
    said: tuple[str, ...] = ()
    received: tuple[tuple[str, ...], ...] = ()


@dataclass(frozen=True)
class Rule:
    """What a check is: its name, its sections and its rule, what it needs, and whether the RFC leaves it open, or it wants to be alone."""

    name: str
    sections: tuple[str, ...]
    text: str
    needs: tuple[str, ...] = ()
    is_open: bool = False
    is_alone: bool = False


def _address(text: str) -> wire.Address:
    try:
        return wire.address(text)
    except ValueError as fault:
        raise argparse.ArgumentTypeError(str(fault)) from None


def pytest_addoption(parser: pytest.Parser) -> None:
    """`--gateway` and `--phones` are always there."""
    group = parser.getgroup("rgw-bench", "checks of an MGCP gateway, and telephones of rgwd (rgw-bench)")
    group.addoption("--gateway", type=_address, metavar="ADDRESS", help="the gateway that is checked; with --help: more words")
    group.addoption("--phones", action="append", default=[], metavar="[NAME=]ADDRESS",
                    help="telephones of an rgwd; checks use the first")


@pytest.hookimpl(tryfirst=True)  # type: ignore[misc]
def pytest_load_initial_conftests(parser: pytest.Parser, args: list[str]) -> None:
    """The other words are there with it."""
    if not any(it.partition("=")[0] == "--gateway" for it in args):
        return
    group = parser.getgroup("rgw-bench")
    group.addoption("--domain", default="", help="the domain of its endpoint names")
    group.addoption("--line", default="", help="the local name of a line, as aaln/1")
    group.addoption("--more-lines", action="append", default=[], metavar="NAME", help="of another one; with -n each worker has two lines")
    group.addoption("--own", type=_address, metavar="ADDRESS", help="the address of the call agent that the gateway is configured for")
    group.addoption("--hook", type=_address, metavar="ADDRESS", help="a program that works its telephones, and starts it anew")
    group.addoption("--slow", action="store_true", help="checks that wait for 10 s or longer, too")
    group.addoption("--gateway-timeout", type=float, metavar="SECONDS", help="the time for the whole run")
    group.addoption("--gateway-only", metavar="NAME,..", help="these checks alone")


def pytest_configure(config: pytest.Config) -> None:
    """Registers the markers: what checks need, and the sections of their rules."""
    config.addinivalue_line("markers", "rfc(*sections): a check of a gateway, by these sections of RFC 3435")
    config.addinivalue_line("markers", "profile: what RFC 3435 leaves open")
    for name, what in NEEDS.items():
        config.addinivalue_line("markers", f"{name}: needs {what}")
    config.stash[LIMIT] = limit = workers.limit_of(config)
    if config.option.gateway and not config.option.collectonly and workers.is_controller(config):
        config.stash[WORKERS] = made = workers.Workers(config, settings_of(config), limit)
        config.pluginmanager.register(made, "rgw_bench.workers")


def pytest_unconfigure(config: pytest.Config) -> None:
    """Closes the sockets."""
    if BENCH in config.stash:
        config.stash[BENCH].gateway.close()


def pytest_report_header(config: pytest.Config) -> str | None:
    """Which gateway is checked, and by how many."""
    if not config.option.gateway:
        return None
    few = config.stash[WORKERS].told() if WORKERS in config.stash else ""
    return f"rgw-bench: {wire.written(config.option.gateway)}{', ' if few else ''}{few}"


def settings_of(config: pytest.Config) -> Settings:
    """What the words say. Raises pytest.UsageError where one lacks."""
    option = config.option
    if not option.gateway:
        raise pytest.UsageError("no --gateway")
    if not option.domain or not option.line:
        raise pytest.UsageError("--gateway wants --domain and --line")
    phones = _address(option.phones[0].rpartition("=")[2]) if option.phones else None
    lines = (option.line, *option.more_lines)
    return Settings(option.gateway, option.domain, lines, option.own, phones, option.hook, option.slow, option.gateway_timeout)


def pytest_collect_file(file_path: Path, parent: pytest.Collector) -> "CheckFile | None":
    """A `*.check` file has checks, where a gateway is checked or the file comes with this package."""
    if file_path.suffix == ".check" and (parent.config.option.gateway or file_path.parent == CHECKS):
        return CheckFile.from_parent(parent, path=file_path, nodeid=file_path.name)  # type: ignore[no-any-return]
    return None


class CheckFile(pytest.File):
    """A file of checks as text."""

    def collect(self) -> Generator["CheckItem", None, None]:
        """Its checks."""
        try:
            checks = check_text.read_file(self.path)
        except check_text.BadCheck as fault:
            raise self.CollectError(str(fault)) from None
        for check in checks:
            yield CheckItem.from_parent(self, name=check.name, check=check)


class CheckItem(pytest.Item):
    """A check as a test."""

    def __init__(self, *, check: Check, **rest: Any) -> None:
        super().__init__(**rest)
        self.check = check
        self.rule = Rule(check.name, check.sections, check.rule, check.needs, check.is_open, check.is_alone)
        mark(self, self.rule)

    def reportinfo(self) -> tuple[Path, int, str]:
        """Where it stands, and what it is called in a report."""
        return self.path, self.check.line - 1, f"{self.name} ({', '.join(self.check.sections)})"

    def repr_failure(self, excinfo: pytest.ExceptionInfo[BaseException], style: Any = None) -> Any:
        """What the check says of it. A traceback, which takes pytest tenths of a second, is for other faults alone."""
        fault = excinfo.value
        return str(fault) if isinstance(fault, (NotMet, NotSupported, OutOfTime, Dead)) else super().repr_failure(excinfo, style)

    def runtest(self) -> None:
        """Plays it."""
        bench = ready(self, self.rule)
        with workers.turn(self.config, self.rule.is_alone, bench.gateway.limit):
            bench.begin(self.check.hears, self.check.announces)
            player = Player(bench.gateway)
            try:
                player.play(self.check.steps)
            finally:
                finish(self, bench, player, list(self.check.undo), self.check.needs)


def rule_of(item: pytest.Item) -> Rule | None:
    """What a check is that is a test: one of a file of checks, or a function with `dialogue.rfc`."""
    if isinstance(item, CheckItem):
        return item.rule
    found = item.get_closest_marker("rfc")
    if found is None:
        return None
    how = found.kwargs
    doc = " ".join((getattr(getattr(item, "function", None), "__doc__", None) or "").split()).rstrip(".")
    name = item.name.removeprefix("test_").replace("_", "-")
    sections = (*found.args, *(["profile"] if how["is_open"] else []))
    return Rule(name, sections, doc, how["needs"], how["is_open"], how["is_alone"])


def mark(item: pytest.Item, rule: Rule) -> None:
    """Marks a check with the sections of its rule, and with what it needs."""
    for name in (*rule.sections, *rule.needs):
        marker = name.replace(" ", "_")
        item.config.addinivalue_line("markers", f"{marker}: RFC 3435, {name}")
        item.add_marker(marker)
    item.user_properties += [("sections", ", ".join(rule.sections)), ("rule", rule.text)]


def pytest_itemcollected(item: pytest.Item) -> None:
    """Checks in Python are marked as those of files are."""
    rule = None if isinstance(item, CheckItem) else rule_of(item)
    if rule:
        mark(item, rule)


@pytest.hookimpl(tryfirst=True)  # type: ignore[misc]
def pytest_collection(session: pytest.Session) -> None:
    """Sees that the gateway can be checked, before the first check and before workers have any; else the status is 3, and the report has
    an error that says why."""
    config = session.config
    if not config.option.gateway or config.option.collectonly or workers.is_worker(config):
        return
    several = config.stash.get(WORKERS, None)
    try:
        if several:
            several.check()
        bench = Bench.opened(settings_of(config), config.stash[LIMIT], several.wire if several else None)
        bench.find()
    except (Dead, OutOfTime) as fault:
        why = str(fault) or OVER
        tell_dead(config, why)
        pytest.exit(why, returncode=3)
    if several:
        several.begin(bench.gateway.announcements, bench.gateway.announcements_answered)
    else:
        config.stash[BENCH] = bench


def pytest_sessionfinish(session: pytest.Session) -> None:
    """Where the time for the whole run is over before all was played the status isn't 0."""
    limit = session.config.stash.get(LIMIT, None)
    if limit is not None and time.monotonic() >= limit and session.exitstatus == 0:
        session.exitstatus = 3


def tell_dead(config: pytest.Config, why: str) -> None:
    """Puts why nothing can be checked into the reports."""
    for when, outcome in (("setup", "failed"), ("teardown", "passed")):
        report = pytest.TestReport(
            nodeid="gateway", location=("gateway", 0, "gateway"), keywords={}, outcome=outcome,  # type: ignore[arg-type]
            longrepr=why if outcome == "failed" else None, when=when,  # type: ignore[arg-type]
        )
        config.hook.pytest_runtest_logreport(report=report)


def is_last(item: pytest.Item) -> bool:
    """Whether a check is one that judges what came during all others."""
    found = item.get_closest_marker("rfc")
    return found is not None and bool(found.kwargs.get("is_last"))


def pytest_collection_modifyitems(config: pytest.Config, items: list[pytest.Item]) -> None:
    """Leaves the checks that are asked for by their names; those that judge what came during all others go last. Raises pytest.UsageError
    where a word lacks that checks need: then the status is 4."""
    names = getattr(config.option, "gateway_only", None)
    if names:
        items[:] = [it for it in items if (rule := rule_of(it)) and rule.name in names.split(",")]
    items.sort(key=is_last)
    # (what lacks is told once, and not by each check)
    if not config.option.collectonly and any(rule_of(it) for it in items):
        settings_of(config)


def bench_of(config: pytest.Config) -> Bench:
    """The one bench of a session. Raises Dead where there is no socket."""
    if BENCH not in config.stash:
        settings = settings_of(config)
        ends, mine = workers.ends_of(config, settings), workers.given(config)
        config.stash[BENCH] = Bench.opened(settings, config.stash[LIMIT], ends, mine.get("part", 0), mine.get("parts", 1))
    return config.stash[BENCH]


def ready(item: pytest.Item, rule: Rule) -> Bench:
    """The bench, where what this check needs is there and the time isn't over; else it is skipped."""
    bench = bench_of(item.config)
    lacking = [NEEDS[it] for it in rule.needs if not bench.settings.has(it)]
    if lacking:
        pytest.skip(f"{UNPLAYED}needs {', '.join(lacking)}")
    if bench.gateway.limit is not None and time.monotonic() >= bench.gateway.limit:
        pytest.skip(f"{UNPLAYED}{OVER}")
    return bench


def finish(item: pytest.Item, bench: Bench, player: Player, undo: list[check_text.Step], needs: tuple[str, ...]) -> None:
    """After a check, whatever came of it: keeps what was said, answers what is under way, and plays what undoes the check."""
    gateway = bench.gateway
    outcome = item.stash.setdefault(OUTCOME, Outcome("", (), ""))
    outcome.said = tuple(gateway.told())
    since = max((at for at, it in enumerate(gateway.log) if it.mark.startswith(">")), default=-1)
    outcome.received = tuple(
        tuple(raw.decode("latin-1").splitlines())
        for it in gateway.log[since + 1:] if it.mark.startswith("<") for raw in mgcp.split(it.data)
    )
    limit = gateway.limit
    try:
        # (what undoes a check has some time also where that of the whole run is over)
        gateway.limit = None if limit is None else max(limit, time.monotonic() + UNDOING)
        gateway.settle()
        player.undo(undo)
        if "restart" in needs:
            bench.serves()
    except (Dead, OutOfTime):
        # (that shows in the checks behind)
        pass
    finally:
        gateway.limit = limit


@pytest.fixture
def gw(request: pytest.FixtureRequest) -> Generator[Dialogue, None, None]:
    """The gateway, at a line of its own. Behind the test its connections are deleted, and its request is undone."""
    item = request.node
    rule = rule_of(item)
    if rule is None:
        raise pytest.UsageError(f"{item.name}: a check wants rgw_bench.dialogue.rfc")
    bench = ready(item, rule)
    with workers.turn(item.config, rule.is_alone, bench.gateway.limit):
        bench.begin("own" in rule.needs, "restart" in rule.needs)
        dialogue = Dialogue(bench.gateway)
        yield dialogue
        undo = undo_steps(item.get_closest_marker("rfc").kwargs["undo"] or "both")
        finish(item, bench, dialogue.player, undo, rule.needs)


def failure(item: pytest.Item, rule: Rule, lines: list[str], message: str) -> ReprExceptionInfo:
    """What a report says of a check that failed: a line for the summary, and all that was said."""
    path, line, _ = item.reportinfo()
    text = "".join(f"{it}\n" for it in [f"{rule.text} (RFC 3435, {', '.join(rule.sections)})", *(f"    {it}" for it in lines)])
    return ReprExceptionInfo(
        reprtraceback=ReprTraceback([ReprEntryNative([text])], None, "native"),
        reprcrash=ReprFileLocation(str(path), (line or 0) + 1, message),
    )


@pytest.hookimpl(hookwrapper=True)  # type: ignore[misc]
def pytest_runtest_makereport(item: pytest.Item, call: pytest.CallInfo[None]) -> Generator[None, Any, None]:
    """What came of a check: its verdict, and what a report says of it."""
    outcome = yield
    report: pytest.TestReport = outcome.get_result()
    rule = rule_of(item)
    if rule is None or (report.when != "call" and report.passed):
        return
    kept = item.stash.setdefault(OUTCOME, Outcome("", (), ""))
    kept.name, kept.sections, kept.rule = rule.name, rule.sections, rule.text
    fault = call.excinfo.value if call.excinfo else None
    judge(item, rule, kept, report, fault)
    report.check = vars(kept)  # type: ignore[attr-defined]


def judge(item: pytest.Item, rule: Rule, kept: Outcome, report: pytest.TestReport, fault: BaseException | None) -> None:
    """Puts a check's verdict into its report."""
    path, line, _ = item.reportinfo()
    if fault is None:
        kept.result = "pass"
    elif isinstance(fault, (NotSupported, OutOfTime, Dead)):
        why = f"not supported: {fault}" if isinstance(fault, NotSupported) else f"{UNPLAYED}{str(fault) or OVER}"
        unplayed(kept, why)
        report.outcome, report.longrepr = "skipped", (str(path), line or 0, f"Skipped: {why}")
    elif isinstance(fault, pytest.skip.Exception):
        unplayed(kept, str(fault))
    else:
        judge_fault(item, rule, kept, report, fault)


def unplayed(kept: Outcome, why: str) -> None:
    """Puts into an outcome that a check isn't played or supported, and the reason: `not played: needs ..`."""
    kept.result, _, reason = why.partition(": ")
    kept.said = (*kept.said, f"! {reason}")


def judge_fault(item: pytest.Item, rule: Rule, kept: Outcome, report: pytest.TestReport, fault: BaseException) -> None:
    """The same of one that isn't met, which is a failure or left open."""
    gateway = item.config.stash[BENCH].gateway if BENCH in item.config.stash else None
    if isinstance(fault, NotMet) and gateway:
        lines = [*gateway.told()] if not kept.said else list(kept.said)
        lines += fault.lines()
        kept.expected, kept.said = fault.due, tuple(lines)
        report.longrepr = failure(item, rule, lines, str(fault))
    if isinstance(fault, AssertionError) and rule.is_open:
        kept.result = "left open"
        report.outcome, report.wasxfail = "skipped", f"left open by the RFC: {kept.expected}"  # type: ignore[attr-defined]
    else:
        kept.result = "FAIL"
