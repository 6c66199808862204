"""Checks of notifications that have a form, an order or a time."""
import time

from rgw_bench import mgcp
from rgw_bench.dialogue import Dialogue, rfc
from rgw_bench.gateway import CROSSING, OWN_IDS

# A signal's time, and how much sooner it may end by the gateway's clock, in ms.
TIME, SOONER = 1000, 50
# So long after a provisional response a notification comes again at the latest, in seconds (RFC 3435, 3.5.6, has 5 s).
LATEST_REPEAT = 12.0


def notified(gw: Dialogue) -> mgcp.Message:
    """The end of a signal is notified, and not yet answered."""
    x = gw.request(is_optional=True, R="L/oc(N)", S="L/rg(to=100)")
    return gw.notified(gw.line, x)


@rfc("2.3.4", "3.2.1.2", needs=("own",))
def test_notification_form(gw: Dialogue) -> None:
    """A notification has a transaction id from 1 to 999999999, the request's identifier and the events, each once"""
    told = notified(gw)
    gw.respond(told)
    gw.due("an id from 1 to 999999999", 0 < told.id < 10**9, f"{told.id}")
    for code in ("X", "O"):
        gw.due(f"{code} once", len(told.values(code)) == 1, " and ".join(f"{code}: {it}" for it in told.values(code)))


@rfc("2.3.3", "4.4.1", needs=("own",))
def test_answer_comes_first(gw: Dialogue) -> None:
    """What a request lets a gateway notify comes behind the answer to that request"""
    one = notified(gw)
    gw.request(R="L/oc(N)", S="L/rg(to=100)")
    gw.pause(300)
    gw.request(R="L/oc(N)", S="L/rg(to=100)")
    gw.pause(300)
    gw.respond(one)
    gw.respond(gw.notified(gw.line))
    x = gw.gateway.base + OWN_IDS
    id = gw.command("RQNT", X=x, R="L/oc(N)")
    told = gw.notified(gw.line, str(x))
    gw.respond(told)
    gw.answer(200, id)
    log = "\n".join(gw.gateway.told())
    is_first = log.index(f"200 {id}") < log.index(f"NTFY {told.id}")
    gw.due(f"200 {id} before NTFY {told.id}", is_first, f"NTFY {told.id} before 200 {id}")


@rfc("2.1.7", "2.3.3", needs=("own",))
def test_signal_lasts(gw: Dialogue) -> None:
    """A signal doesn't end before the time that it was given"""
    begun = time.monotonic()
    x = gw.request(is_optional=True, R="L/oc(N)", S=f"L/rg(to={TIME})")
    told = gw.notified(gw.line, x)
    gw.respond(told)
    ended = next(it.moment for it in gw.gateway.unasked if it.message.id == told.id)
    took = (ended - begun) * 1000
    gw.due(f"the end of L/rg after {TIME} ms", took >= TIME - SOONER, f"{mgcp.shown(told.raw, 200)} after {took:.0f} ms")


@rfc("3.5.6", needs=("own",))
def test_repeated_after_provisional(gw: Dialogue) -> None:
    """A notification comes again, though later, if a provisional response is all that came"""
    told = notified(gw)
    gw.respond(told, 100)
    gateway = gw.gateway
    since = gateway.last_moment + CROSSING

    def again() -> bool:
        return any(it.message.raw == told.raw and it.moment > since for it in gateway.unasked)

    gateway.pump(since + LATEST_REPEAT, again)
    gw.due(f"NTFY {told.id} again, from {CROSSING:g} to {LATEST_REPEAT:g} s after 100 {told.id}", again(), "nothing")
    gw.respond(told)
