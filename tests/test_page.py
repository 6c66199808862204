"""The page of rgwd in Chromium: what an operator of 2, 16 and 96 lines does, in windows of 1,280 and 400 pixels.

PAGE=1 takes the files of page/ as they stand in place of those that rgwd was built with. SHOTS=FOLDER gets a test's last screenshots.
"""
import cmath
import contextlib
import datetime
import json
import re
import socket
import time
from collections.abc import Callable, Sequence
from pathlib import Path
from typing import Any

import pytest
from page import (
    CONNECTED, CUT, FILE_DRAWN, HOLD, LAST_ROW, SHOWN_ROWS, SHOWN_TEXTS, Page, card, rows, shown, text_of, tool,
)
from running import heard, until

pytestmark = pytest.mark.live
Pages = Callable[..., Page]
# How late the page may be, in s.
LATE = 0.2
# Events of a long trace, and how long the page may do nothing else while it draws them, in ms.
LONG_TRACE, HELD_UP = 200_000, 500
CALL = "C0FFEE0123456789C0FFEE0123456789"
AGENT = text_of("agent")


def test_what_happens_is_shown_at_once(page: Pages) -> None:
    """The agent rings a telephone, a click lifts its handset, and that is notified: each is shown within 200 ms."""
    it = page(16)
    browser, name = it.browser, "rgw.example.net aaln/1 to aaln/16"
    browser.until(CONNECTED)
    browser.until(f"document.title === '{name} - rgwd' && document.querySelector('h1').textContent === '{name}'", told="document.title")
    assert browser.value(text_of("telephones-title")) == "Telephones of rgw.example.net"
    its = f"{card(2)}.querySelector('.phone-name')"
    names = browser.value(f"[{its}.textContent, {its}.title, {card(2)}.getAttribute('aria-label')]")
    assert names == ["aaln/2", "aaln/2@rgw.example.net", "aaln/2@rgw.example.net"]
    browser.until(f"{text_of('numbers')}.endsWith(', ids from 0')", told=text_of("numbers"))
    browser.until(rows("RSIP 1 *"))
    it.says("RQNT 101 aaln/1@rgw.example.net MGCP 1.0\nX: 1\nR: L/hd(N)\nS: L/rg\n")
    browser.until(rows("RQNT 101 aaln/1"), LATE)
    browser.until(f"{card(1)}.classList.contains('rings')", LATE)
    browser.click(f"{card(1)}.querySelector('.phone-hook')")
    browser.until(rows("1: lifted"), LATE)
    it.agent.hears(r"NTFY \d+ aaln/1@.*\n(.*\n)*O: L/hd")
    browser.until(rows("NTFY"), LATE)
    browser.until(f"{card(1)}.classList.contains('off')")
    it.gateway.stop()
    browser.open_file(it.trace)
    browser.until("document.querySelector('main').classList.contains('is-file')")
    for text in ("RSIP 1 *", "RQNT 101 aaln/1", "1: lifted", "200 101 OK", "NTFY"):
        browser.until(rows(text))


def test_keyboard_and_markup(page: Pages) -> None:
    """Keys of the keyboard, a message's text, what is refused, and a datagram that would be markup."""
    it = page(16)
    browser = it.browser
    it.act(1, "off")
    it.says("RQNT 102 aaln/1@rgw.example.net MGCP 1.0\nX: 2\nR: D/[0-9](N),L/hu(N)\nS: L/dl\n")
    browser.until(f"{card(1)}.textContent.includes('dial tone')")
    browser.value(f"{card(1)}.querySelector('.phone-name').focus()")
    browser.press("5")
    browser.until(rows("1: key 5"))
    it.agent.hears(r"O: D/5")
    browser.press("ArrowRight")
    browser.until(f"{card(2)}.contains(document.activeElement)")
    browser.press("5")
    browser.until(f"{text_of('refused')}.includes('PhoneState')")
    browser.click("[...document.querySelectorAll('#ladder .row')].find((row) => row.textContent.includes('RQNT 102'))")
    browser.until(f"{text_of('message-text')}.includes('S: L/dl')")
    it.says("<img src=x onerror=document.title='bad'>\n")
    browser.until(rows("not MGCP: <img"))
    assert browser.value("document.title !== 'bad' && document.querySelector('#ladder img') === null")


def test_long_trace(page: Pages, tmp_path: Path) -> None:
    """200,000 events are drawn in steps; then the last call is shown whole, with the other line's requests and nothing of a third."""
    browser, path = page(2).browser, tmp_path / "long.trace"
    with open(path, "w") as file:
        file.writelines(tool("made_trace").made(LONG_TRACE))
    browser.value(HOLD)
    browser.open_file(path)
    browser.until(FILE_DRAWN, 300, text_of("standing"))
    assert browser.value(text_of("standing")) == f"long.trace: {LONG_TRACE} events"
    last = LONG_TRACE // 45
    caller = 2 * (last - 1) % 96 + 1
    browser.choose("shown-call", f"{last:X}")
    told = browser.value(SHOWN_ROWS)
    assert len(told) == 43 and told[0] == f"aaln/{caller}: lifted" and told[-5] == f"aaln/{caller}: hung up", told
    assert f"aaln/{caller + 1}: lifted" in told
    browser.choose("shown-call", "")
    assert browser.value("held") <= HELD_UP


def test_whether_the_agent_answers(page: Pages) -> None:
    """The page and the state say it, from the start on; and the time of day stands beside the gateway's clock."""
    it = page(2, is_silent=True)
    browser = it.browser
    browser.until(f"{AGENT} === 'no agent has answered yet'", told=AGENT)
    assert it.state()["serving"] is False and browser.value(CONNECTED)
    it.agent.is_silent = False
    browser.until(f"{AGENT} === 'the agent answers'", told=AGENT)
    assert it.state()["serving"] is True
    now = datetime.datetime.now(datetime.timezone.utc)
    wall = datetime.datetime.strptime(browser.value(text_of("wall")), "%H:%M:%SZ")
    late = (now.hour * 3600 + now.minute * 60 + now.second - wall.hour * 3600 - wall.minute * 60 - wall.second) % 86400
    assert late in (86399, 0, 1, 2)
    assert re.fullmatch(r"\d\d:\d\d:\d\dZ", browser.value("document.querySelector('.row .wall').textContent"))
    it.agent.is_silent = True
    it.says("RQNT 770900 aaln/2@rgw.example.net MGCP 1.0\nX: 9\nR: L/hd(N),L/hu(N)\n")
    browser.until(rows("770900"))
    it.act(2, "off")
    browser.until(f"/hasn't answered for [23] s/.test({AGENT})", 6, AGENT)
    state = it.state()
    assert state["agent_answers"] is False and 2000 < state["clock"] - state["unanswered_since"] < 6000
    it.agent.is_silent = False
    browser.until(f"{AGENT} === 'the agent answers'", 6, AGENT)
    state = it.state()
    assert state["agent_answers"] is True and state["unanswered_since"] is None


# A call

class Call:
    """A call at the last line of a gateway, with other lines' messages in between; `number` is its connection's."""

    def __init__(self, page: Page):
        self.page, self.line = page, page.lines
        self.name = f"aaln/{self.line}@rgw.example.net"
        page.browser.until(CONNECTED)
        page.act(self.line, "off")
        page.agent.hears(f"NTFY \\d+ {self.name}")
        page.says(f"CRCX 999999001 {self.name} MGCP 1.0\nC: {CALL}\nM: recvonly\nL: p:30\n")
        found = re.search(r"I: (\w+)", page.agent.hears(r"200 999999001 OK\nI: (\w+)"))
        assert found
        self.number = found[1]
        self.says(f"RQNT 999999002 {self.name}", "X: 2\nR: D/[0-9](N),L/hu(N)\n")
        page.act(self.line, "7")
        page.agent.hears("O: D/7")
        page.says("AUEP 999999003 aaln/1@rgw.example.net MGCP 1.0\n")
        description = "v=0\no=- 1 1 IN IP4 10.1.2.3\ns=-\nc=IN IP4 10.1.2.3\nt=0 0\nm=audio 4000 RTP/AVP 8 0\n"
        self.says(f"MDCX 999999004 {self.name}", f"C: {CALL}\nI: {self.number}\nM: sendrecv\n\n{description}")

    def says(self, head: str, below: str = "", code: int = 200) -> None:
        """The agent sends a command, and has its answer."""
        self.page.says(f"{head} MGCP 1.0\n{below}")
        self.page.agent.hears(rf"{code} {head.split()[1]}\b")

    def choose(self) -> None:
        """Chooses it in the page."""
        self.page.browser.until(f"[...document.getElementById('shown-call').options].some((it) => it.value === '{CALL}')")
        self.page.browser.choose("shown-call", CALL)


@pytest.fixture(params=[2, 96], ids=["2 lines", "96 lines"])
def call(page: Pages, request: Any) -> Call:
    """A call at a gateway of so many lines."""
    return Call(page(request.param))


def begin_so(told: Sequence[str], heads: Sequence[str]) -> bool:
    """Whether these rows begin with these texts, each with its own."""
    return len(told) == len(heads) and all(row.startswith(head) for row, head in zip(told, heads))


def test_connection_is_told(call: Call) -> None:
    """Its call, mode, codec, packet time and remote address; and one connection as one."""
    told = f"{card(call.line)}.querySelector('.carries').textContent"
    wanted = f"connection {call.number} sendrecv, call {CALL}, PCMU 30 ms to 10.1.2.3:4000"
    call.page.browser.until(f"{told} === {json.dumps(wanted)}", told=told)
    counts, numbers = f"{call.line} lines, 1 off hook, 1 connection, datagrams ", text_of("numbers")
    call.page.browser.until(f"{numbers}.includes('{counts}')", told=numbers)
    assert [it["call"] for it in call.page.state()["lines"][call.line - 1]["connections"]] == [CALL]


def test_ends_of_the_ladder_and_narrow_windows(call: Call) -> None:
    """While Follow is ticked the last row stays in sight, and the ladder whole, whatever the window does."""
    browser = call.page.browser
    for height in (700, 500):
        browser.size(1280, height)
        browser.choose("following", True)
        browser.until(LAST_ROW)
        browser.click("[...document.querySelectorAll('#ladder li:not([hidden]) .row')].at(-1)")
        browser.until("!document.getElementById('message').hidden && " + LAST_ROW, 1)
        assert browser.value(CUT) == []
        browser.size(400, height)
        browser.until(f"{CUT}.length === 0", 2, CUT)
        browser.until(LAST_ROW, 2)
        browser.size(1280, height)
        browser.until(LAST_ROW, 2)
        assert browser.value(CUT) == []


def test_call_is_followed(call: Call) -> None:
    """Its view has what happened at its line from its lifting until its next lifting is requested, and no further."""
    browser, line = call.page.browser, call.line
    call.choose()
    heads = [f"aaln/{line}: lifted", "NTFY", "200", "CRCX 999999001", "200 999999001", "RQNT 999999002", "200 999999002",
             f"aaln/{line}: key 7", "NTFY", "200", "MDCX 999999004", "200 999999004"]
    browser.until(f"{SHOWN_ROWS}.length >= {len(heads)}", told=SHOWN_ROWS)
    assert begin_so(browser.value(SHOWN_ROWS), heads), browser.value(SHOWN_ROWS)
    call.says(f"DLCX 999999005 {call.name}", f"C: {CALL}\nI: {call.number}\n", 250)
    browser.until(f"{SHOWN_ROWS}.at(-1).startsWith('250 999999005')")
    call.page.act(line, "on")
    browser.until(f"{card(line)}.textContent.includes('on hook')")
    call.says(f"RQNT 999999006 {call.name}", "X: 6\nR: L/hd(N),L/hu(N)\n")
    call.says(f"AUEP 999999007 {call.name}")
    heads += ["DLCX 999999005", "250 999999005", f"aaln/{line}: hung up", "RQNT 999999006", "200 999999006", "NTFY", "200"]
    browser.until(f"ladder.rows.at(-1).text.startsWith('200 999999007') && {SHOWN_ROWS}.length === {len(heads)}", told=SHOWN_ROWS)
    told = browser.value(SHOWN_ROWS)
    assert begin_so(told, heads), told
    browser.choose("shown-call", "")
    assert len(browser.value(SHOWN_ROWS)) > len(told)
    browser.click("[...document.querySelectorAll('#ladder .row')].find((row) => row.textContent.includes('CRCX 999999001'))")
    browser.click("document.getElementById('message-call')")
    assert browser.value(SHOWN_ROWS) == told


def test_report_of_what_was_heard(call: Call, tmp_path: Path) -> None:
    """What a report tells of the chosen call stands above its ladder, by the clock of this gateway, and beside the rows of that time."""
    browser, line, number = call.page.browser, call.line, call.number
    call.choose()
    local = browser.value(f"ladder.calls.ends.get('{line} {number}').local")
    moments = browser.value("ladder.pane.wanted.map((row) => row.at)")
    here = {
        "gateway": "near", "line": line, "connection": number, "zero": 5000, "local": local, "begun": moments[0], "ended": None,
        "stood": [{"remote": "-"}, {"remote": "10.1.2.3:4000"}], "heard": [{"from": moments[1], "to": moments[-2]}],
    }
    there = {
        "gateway": "far", "line": 7, "connection": "1", "zero": 4000, "local": "10.1.2.3:4000", "begun": 0, "ended": None,
        "stood": [{"remote": local}], "heard": [{"from": 61_000, "to": 62_000}],
    }
    (tmp_path / "report.json").write_text(json.dumps({"connections": [here, there]}))
    browser.open_file(tmp_path / "report.json", "report")
    told = "[...document.querySelectorAll('#heard .end')].map((it) => it.textContent)"
    browser.until(f"{told}.length === 2", told=told)
    ends = browser.value(told)
    assert ends[0].startswith(f"line {line} heard far:7: ") and ends[1] == f"far:7 heard line {line}: 01:00.000 to 01:01.000"
    marked = "ladder.rows.filter((row) => row.button?.classList.contains('heard-1'))"
    assert browser.value(f"{marked}.every((row) => row.at >= {moments[1]} && row.at <= {moments[-2]})")
    assert browser.value("document.querySelectorAll('#ladder li:not([hidden]) .row.heard-1').length") >= 1


def test_what_is_shown_is_saved_as_a_trace(call: Call, tmp_path: Path) -> None:
    """And drawn again as it was."""
    browser = call.page.browser
    call.choose()
    told = browser.value(SHOWN_TEXTS)
    browser.ask("Page.setDownloadBehavior", behavior="allow", downloadPath=str(tmp_path))
    browser.click("document.getElementById('save')")
    assert until(lambda: browser.value("1") and list(tmp_path.glob("*.trace")))
    saved, = tmp_path.glob("*.trace")
    assert re.match(r"# shown .*\n%%\nat \d+\nphone ", saved.read_text()) and "\n| > 127" in saved.read_text()
    browser.open_file(saved)
    browser.until(FILE_DRAWN)
    assert browser.value(SHOWN_TEXTS) == told
    browser.click("document.getElementById('live')")
    browser.until(CONNECTED)
    browser.until(rows("200 999999004"))


def test_reasons_and_refusals(call: Call) -> None:
    """A return code stands with its reason; what is refused at the last line is told there, and above all, in sight."""
    browser, line = call.page.browser, call.line
    call.page.act(line, "on")
    browser.until(f"{card(line)}.textContent.includes('on hook')")
    call.says(f"RQNT 770000 {call.name}", "X: 3\nS: L/dl\n", 402)
    browser.until(
        "[...document.querySelectorAll('#ladder .row')].some((row) => row.textContent.includes('402 770000')"
        " && row.querySelector('.reason')?.textContent === 'the phone is already on hook')"
    )
    browser.value(f"{card(line)}.scrollIntoView(); {card(line)}.querySelector('.phone-name').focus()")
    browser.press("5")
    told = f'.phone[data-line="{line}"] .refusal'
    browser.until(f"document.querySelector({json.dumps(told)}).textContent === 'refused: PhoneState'")
    browser.until(shown(told))
    browser.until(shown("#refused"))


def test_lines_are_found(page: Pages) -> None:
    """Only those that do something; and a search by line, which shows its rows alone."""
    call = Call(page(96))
    browser = call.page.browser
    cards = "[...document.querySelectorAll('.phone')].filter((it) => !it.hidden).map((it) => Number(it.dataset.line))"
    busy = browser.value("telephones.list.filter((it) => it.isBusy).map((it) => it.line)")
    browser.choose("busy-only", True)
    assert browser.value(cards) == busy and 0 < len(busy) < 96, browser.value(text_of("phones-told"))
    browser.choose("busy-only", False)
    browser.choose("wanted-lines", "95-96", "input")
    assert browser.value(cards) == [95, 96]
    names = browser.value("[...document.querySelectorAll('#ladder li:not([hidden]) .command .name')].map((it) => it.textContent)")
    assert set(names) == {"aaln/96", "*"}
    browser.choose("wanted-lines", "", "input")
    assert len(browser.value(cards)) == 96


def part_of(samples: Sequence[float], hertz: int) -> float:
    """How loud a frequency is in samples, 8,000 a second."""
    return 2 * abs(sum(it * cmath.exp(-2j * cmath.pi * hertz * place / 8000) for place, it in enumerate(samples))) / len(samples)


def test_tones_are_played_where_they_were_asked_for(page: Pages) -> None:
    """Dial tone, busy tone in its place, and nothing once the handset hangs."""
    it = page(2)
    browser = it.browser
    browser.until(CONNECTED)
    browser.value("act(1, 'off'); telephones.choose(telephones.list[0], false)")
    it.agent.hears("RSIP")
    browser.until(f"{card(1)}.classList.contains('off')")
    it.says("RQNT 770100 aaln/1@rgw.example.net MGCP 1.0\nX: 4\nR: L/hu(N)\nS: L/dl\n")
    browser.until(f"{card(1)}.textContent.includes('dial tone')")
    assert browser.value("played.length === 0 && contexts === 0")
    browser.click("document.getElementById('tones')")
    browser.until("played.length === 1 && played[0].isOn && played[0].loop")
    samples = browser.value("[...played[0].buffer.getChannelData(0)]")
    parts = [part_of(samples, hertz) for hertz in (350, 440, 480, 620)]
    assert min(parts[:2]) > 0.09 and max(parts[2:]) < 0.01, parts
    it.says("RQNT 770101 aaln/1@rgw.example.net MGCP 1.0\nX: 5\nR: L/hu(N)\nS: L/bz\n")
    browser.until("played.length === 2 && !played[0].isOn && played[1].isOn")
    samples = browser.value("[...played[1].buffer.getChannelData(0)]")
    # (0.5 s of sound, and as much of silence)
    assert min(part_of(samples[:4000], hertz) for hertz in (480, 620)) > 0.09 and samples[4000:] == [0] * 4000
    it.act(1, "on")
    browser.until("played.every((it) => !it.isOn)")
    browser.click("document.getElementById('tones')")
    assert browser.value("!document.getElementById('tones').checked")


def test_many_connections_hold_up_no_audit(page: Pages) -> None:
    """Of twenty audits beside 64 of them the fastest is answered at most 10 ms later than the fastest of twenty without."""
    it, held = page(2), []

    def fastest(first: int) -> float:
        took = []
        for number in range(first, first + 20):
            began = time.monotonic()
            it.gateway.phone.sendto(b"AUEP %d aaln/1@rgw.example.net MGCP 1.0\r\n" % number, it.gateway.address)
            assert heard(it.gateway.phone)
            took.append(time.monotonic() - began)
        return min(took)

    alone = fastest(900)
    for _ in range(64):
        with contextlib.suppress(OSError):
            held.append(socket.create_connection(it.site, timeout=1))
            held[-1].sendall(b"GET / HT")
    assert fastest(1000) <= alone + 0.01
    for connection in held:
        connection.close()
