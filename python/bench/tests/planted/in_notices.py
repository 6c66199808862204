"""Faults of notifications."""
from __future__ import annotations

from collections.abc import Iterable

from .faults import answered, changed, copied, in_command, in_own, in_response, is_command
from .proxy import Fault, Out
from .rows import Row

QUARANTINE, NOTICES = "quarantine.check::", "test_notices.py::"


def quarantines_all() -> Fault:
    """The end of a signal is quarantined, whether it is to be detected or not."""

    def hears(message: str) -> str:
        is_meant = is_command(message, "RQNT") and "\nT:" not in message
        return changed(message, r"^(X: .*\r\n)", r"\1T: L/oc\r\n") if is_meant else message

    return Fault(hears=hears)


def held(response: str) -> Iterable[Out]:
    """An answer that goes out 0.3 s later."""
    return [Out(response, later=0.3)]


ROWS = [
    Row("A provisional response is taken as the final one", lambda: in_response(r"\A1\d\d ", "200 "),
        f"{QUARANTINE}provisional-is-not-final", "quiet 1500", "NTFY "),
    Row("A provisional response ends the repeats", lambda: in_response(r"\A1\d\d ", "200 "), f"{NOTICES}test_repeated_after_provisional",
        "again, from 1 to 12 s", "nothing"),
    Row("A notification comes again 26 s after its answer", lambda: copied("NTFY", 26), f"{QUARANTINE}answered-for-good", "quiet 30000",
        "NTFY "),
    Row("Events to detect are passed over", lambda: in_command("RQNT", r"^T:.*\r\n", ""), f"{QUARANTINE}detected", "notified two",
        "nothing"),
    Row("Events are quarantined that nobody asked for", quarantines_all, f"{QUARANTINE}undetected", "quiet 1000", "NTFY "),
    Row("A signal ends before its time", lambda: in_command("RQNT", r"to=1000", "to=100"), f"{NOTICES}test_signal_lasts",
        "the end of L/rg after 1000 ms", "NTFY "),
    Row("A response without K is acknowledged", lambda: in_response(r"\A(200 .*)\r\n", r"\1\r\nK:\r\n"),
        f"{QUARANTINE}unasked-acknowledgement", "silence 700", "000 "),
    Row("A notification has an id of ten digits", lambda: in_own("NTFY", r"\A(NTFY )\d+", r"\g<1>1234567890"),
        "notices.check::notification", "notified told", "NTFY 1234567890"),
    Row("A notification tells its events twice", lambda: in_own("NTFY", r"^(O: .*\r\n)", r"\1\1"),
        f"{NOTICES}test_notification_form", "O once",
        "O: L/oc(L/rg) and O: L/oc(L/rg)"),
    Row("A notification has two identifiers", lambda: in_own("NTFY", r"^(X: .*\r\n)", r"\1X: 0\r\n"), f"{NOTICES}test_notification_form",
        "X once", " and X: 0"),
    Row("A notification comes before the answer that allows it", lambda: answered("RQNT", held), f"{NOTICES}test_answer_comes_first",
        "200 ", "NTFY "),
]
