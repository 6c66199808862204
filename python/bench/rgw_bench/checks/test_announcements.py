"""Checks of announcements (RSIP): of a start that a check asks for, and of all that came by themselves while checks were played."""
import pytest

from rgw_bench import mgcp
from rgw_bench.dialogue import Dialogue, rfc
from rgw_bench.gateway import CROSSING

METHODS = ("restart", "graceful", "forced", "disconnected", "cancel-graceful")
# So long may the announcements of one start be apart, and so long it is seen whether one comes again after its answer, in ms.
APART, AGAIN = 1000, 2000


def names(endpoint: str, line: str) -> bool:
    """Whether an announcement for this endpoint, perhaps with wildcards, is one for this line."""
    local, _, domain = endpoint.lower().partition("@")
    own, _, own_domain = line.lower().partition("@")
    terms, own_terms = local.split("/"), own.split("/")
    is_all = local == "*" or len(terms) == len(own_terms) and all(it in ("*", its) for it, its in zip(terms, own_terms))
    return is_all and domain == own_domain


def due_for_lines(gw: Dialogue, endpoints: list[str]) -> None:
    """Announcements for these endpoints are for each line that is checked."""
    for line in gw.gateway.lines:
        gw.due(f"RSIP for {line}", any(names(it, line) for it in endpoints), f"RSIP for {', '.join(endpoints)}")


@rfc("2.3.12", "4.4.6", needs=("own", "restart"), is_alone=True)
def test_start_names_lines(gw: Dialogue) -> None:
    """A gateway that starts announces that for each of its lines, by one announcement or several"""
    gw.restart()
    gw.respond(gw.announced("restart"))
    gw.pause(APART)
    for came in [it for it in gw.gateway.unasked if not it.is_asked]:
        gw.respond(came.message)
    due_for_lines(gw, [it.message.endpoint for it in gw.gateway.unasked if it.message.verb == "RSIP"])


@rfc("2.3.12", "4.4.6", needs=("own",), is_last=True)
def test_announcements_heard(gw: Dialogue) -> None:
    """What a gateway announced while checks were played has a method, and names lines; once answered it doesn't come again"""
    gateway = gw.gateway
    if not gateway.announcements:
        pytest.skip("not played: the gateway announced nothing by itself")
    gw.pause(AGAIN)
    for came in gateway.announcements:
        answered = gateway.announcements_answered[came.message.id]
        shown = mgcp.shown(came.message.raw, 200)
        gateway.note("<", shown, came.message.raw, came.moment)
        gateway.note(">", f"200 {came.message.id} OK", moment=max(came.moment, answered))
        again = f"{shown} {came.moment - answered:.1f} s after its answer"
        gw.due("no announcement after its answer", came.moment <= answered + CROSSING, again)
        method = (came.message["RM"] or "").lower()
        gw.due(f"announced {'|'.join(METHODS)}", method in METHODS, shown)
    starts = [it.message.endpoint for it in gateway.announcements if (it.message["RM"] or "").lower() == "restart"]
    if starts:
        due_for_lines(gw, starts)
