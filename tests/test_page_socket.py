"""The page's own socket: who is let in, answered and let go, whether the gateway serves, and what it counts."""
import json
import os
import resource
import select
import shutil
import signal
import socket
import time

import pytest
from page import asked
from running import Address, Bench, Program, heard, ran, until

# What is counted that an operator watches.
METRICS = ("rgw_serving 1", 'rgw_given_up_total{owner="line"}', 'rgw_sends_total{place="1"}', "rgw_strangers_total",
           "rgw_lost_commands_total")
# What lifts the handset of line 2, as the page posts it.
ACT, KIND = b'{"line": 2, "act": "off"}', "application/json"


def visited(address: Address, by: str = "") -> bytes:
    """What the page answers to a visitor from this address who says a little later what they want."""
    with socket.create_connection(address, 10, (by, 0)) as visitor:
        time.sleep(0.2)
        visitor.sendall(b"GET / HTTP/1.1\r\nHost: %s:%d\r\nConnection: close\r\n\r\n" % (address[0].encode(), address[1]))
        return b"".join(iter(lambda: visitor.recv(65536), b""))


@pytest.fixture
def gateway(bench: Bench) -> Program:
    """A gateway with a page, which has a name too."""
    return bench.gateway("--http", "127.0.0.1:0", "--http-host", "rgw.example.net")


def test_who_asks_for_nothing_is_let_go_after_15_s(gateway: Program) -> None:
    with socket.create_connection(gateway.addresses[2], timeout=40) as visitor:
        began = time.monotonic()
        assert visitor.recv(1) == b""
        assert 14.5 < time.monotonic() - began < 25


def test_page_answers_each_visitor(gateway: Program) -> None:
    for _ in range(2):
        answer = visited(gateway.addresses[2])
        assert answer.startswith(b"HTTP/1.1 200 ") and answer.endswith(b"</html>\n")


def test_sixteen_idle_visitors_keep_nobody_out(gateway: Program) -> None:
    """Nor eight of an address its ninth, long before they are let go; whoever was idle longest gives way."""
    site = gateway.addresses[2]
    silent = [[socket.create_connection(site, 5, (by, 0)) for _ in range(8)] for by in ("127.0.0.2", "127.0.0.3")]
    time.sleep(0.3)
    for by in ("127.0.0.4", "127.0.0.3"):
        assert visited(site, by).startswith(b"HTTP/1.1 200 ")
    ready = select.select(silent[0] + silent[1], [], [], 1)[0]
    assert ready == [silent[0][0], silent[1][0]]
    for visitor in silent[0] + silent[1]:
        visitor.close()


def status(gateway: Program, path: str, **fields: str) -> int:
    """The status of what is asked for."""
    return asked(gateway.addresses[2], "GET", path, None, **fields)[0]


@pytest.mark.parametrize("host, told", [("rgw.example.net", [200, 200, 200, 421, 421]), ("rgw.example.com", 5 * [421])])
def test_named_hosts(gateway: Program, host: str, told: list[int]) -> None:
    """--http-host names a host under which health and counts are served, and nothing else."""
    assert until(lambda: status(gateway, "/readyz") == 200)
    assert [status(gateway, path, Host=host) for path in ("/healthz", "/readyz", "/metrics", "/state", "/")] == told


def test_serves_once_an_agent_answers(bench: Bench) -> None:
    gateway = bench.start(bench.gateway_words("--http", "127.0.0.1:0"))
    assert (status(gateway, "/healthz"), status(gateway, "/readyz")) == (200, 503)
    bench.answered(gateway)
    assert until(lambda: status(gateway, "/readyz") == 200)


def test_one_that_is_stopped_does_not_answer(gateway: Program) -> None:
    gateway.process.send_signal(signal.SIGSTOP)
    with socket.create_connection(gateway.addresses[2], 1.5) as visitor, pytest.raises(TimeoutError):
        visitor.sendall(b"GET /healthz HTTP/1.1\r\n\r\n")
        visitor.recv(1)
    gateway.process.send_signal(signal.SIGCONT)
    assert until(lambda: status(gateway, "/healthz") == 200)


def test_other_sites_are_refused(gateway: Program) -> None:
    """As what a browser may send in the name of another page, and what can't be read."""
    site = gateway.addresses[2]
    here, evil = "http://%s:%d" % site, "http://evil.example"
    assert asked(site, "GET", "/state", Host="evil.example")[0] == 421
    assert asked(site, "POST", "/phone", ACT, Host=f"evil.example:{site[1]}", Origin=here, Content_Type=KIND)[0] == 421
    refused: list[tuple[int, str, str, bytes | None, dict[str, str]]] = [
        (403, "POST", "/phone", ACT, {"Origin": evil, "Content_Type": KIND}), (403, "POST", "/phone", ACT, {"Content_Type": KIND}),
        (403, "POST", "/phone", ACT, {"Origin": here, "Content_Type": "text/plain"}), (405, "GET", "/phone", None, {}),
        (405, "POST", "/state", ACT, {"Origin": here, "Content_Type": KIND}), (404, "GET", "/other", None, {}),
        (400, "POST", "/phone", b"{}", {"Origin": here, "Content_Type": KIND}),
        (413, "POST", "/phone", b" " * 5000, {"Origin": here, "Content_Type": KIND}),
    ]
    for status, method, path, body, fields in refused:
        assert asked(site, method, path, body, **fields)[0] == status, (method, path, fields)
    assert json.loads(asked(site, "GET", "/state")[1])["lines"][1]["hook"] == "on"
    assert asked(site, "POST", "/phone", ACT, Origin=here, Content_Type=KIND)[0] == 202


def test_metrics(gateway: Program, bench: Bench) -> None:
    """Commands are counted by verb, and what an operator watches; promtool, where it is there, takes them."""
    bench.agent.sendto(b"RQNT 7 aaln/1@rgw.example.net MGCP 1.0\r\nX: 1\r\n", gateway.address)
    assert heard(bench.agent).startswith(b"200 7 ")
    status, text = asked(gateway.addresses[2], "GET", "/metrics")
    assert status == 200 and 'rgw_commands_total{verb="RQNT"} 1\n' in text and not [it for it in METRICS if f"\n{it}" not in text]
    if shutil.which("promtool"):
        checked = ran(["promtool", "check", "metrics"], input=text, stdin=None)
        assert checked[0] == 0, checked


def test_visitor_waits_while_no_file_is_free(gateway: Program) -> None:
    """Who can't be let in is let in once files are free, though nobody else comes; the want of files is logged once."""
    pid = gateway.process.pid
    most = resource.prlimit(pid, resource.RLIMIT_NOFILE)
    held = {int(name) for name in os.listdir(f"/proc/{pid}/fd")}
    resource.prlimit(pid, resource.RLIMIT_NOFILE, (min(set(range(len(held) + 1)) - held), most[1]))
    with socket.create_connection(gateway.addresses[2], timeout=10) as visitor:
        visitor.sendall(b"GET /healthz HTTP/1.1\r\nHost: 127.0.0.1:%d\r\nConnection: close\r\n\r\n" % gateway.addresses[2][1])
        time.sleep(0.5)
        resource.prlimit(pid, resource.RLIMIT_NOFILE, most)
        assert visitor.recv(65536).startswith(b"HTTP/1.1 200 ")
    assert gateway.stop()[1].count("page: nobody is let in: too many open files\n") == 1
