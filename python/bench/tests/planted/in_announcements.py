"""Faults of announcements, by RSIP."""
from __future__ import annotations

from .faults import copied, in_own, in_response, unsaid
from .rows import Row

RESTARTS, LOST, VALUES = "telephones.check::", "disconnected.check::", "test_announcements.py::"
METHOD, ALL = r"^RM:.*\r\n", r"\A(RSIP \d+ )\*@"
REDIRECTION = r"(?s)\A521 (\d+).*"

ROWS = [
    Row("No announcement follows a start", lambda: unsaid("RSIP"), f"{RESTARTS}restart-announced", "announced one restart",
        "nothing"),
    Row("The announcement of a start has no method", lambda: in_own("RSIP", METHOD, ""), f"{RESTARTS}restart-announced",
        "announced one restart", "RSIP "),
    Row("The announcement of a start has another method", lambda: in_own("RSIP", METHOD, "RM: graceful\r\n"),
        f"{RESTARTS}restart-announced", "announced one restart", "RM: graceful"),
    Row("The announcement of a start names one line", lambda: in_own("RSIP", ALL, r"\1aaln/1@"), f"{VALUES}test_start_names_lines",
        "RSIP for aaln/2@rgw.example.net", "RSIP for aaln/1@rgw.example.net"),
    Row("A redirection of a start is taken as its answer", lambda: in_response(REDIRECTION, r"200 \1 OK\r\n"),
        f"{RESTARTS}restart-redirected", "announced-there two restart", "nothing"),
    Row("The announcement of a start comes again though answered", lambda: copied("RSIP", 0.7, 1.2), f"{RESTARTS}restart-announced",
        "quiet 1500", "RSIP "),
    Row("A lost line isn't announced", lambda: unsaid("RSIP", "disconnected"), f"{LOST}disconnected", "announced lost disconnected aaln/1@",
        "nothing"),
    Row("A lost line is announced as a start", lambda: in_own("RSIP", METHOD, "RM: restart\r\n"), f"{LOST}disconnected",
        "announced lost disconnected aaln/1@", "RM: restart"),
    Row("A lost line is announced as all lines", lambda: in_own("RSIP", r"\A(RSIP \d+ )aaln/1@", r"\1*@"), f"{LOST}disconnected",
        "announced lost disconnected aaln/1@", "*@rgw.example.net"),
    Row("The announcement of a lost line comes again though answered", lambda: copied("RSIP", 1.3), f"{LOST}disconnected",
        "quiet 2000", "RSIP "),
    Row("A redirection of a lost line is taken as its answer", lambda: in_response(REDIRECTION, r"200 \1 OK\r\n"),
        f"{LOST}disconnected-redirected", "announced-there again disconnected aaln/1@", "nothing"),
    Row("A start that nobody asked for has no method", lambda: in_own("RSIP", METHOD, ""), f"{VALUES}test_announcements_heard",
        "announced restart|graceful", "RSIP ", is_new=True),
    Row("A start that nobody asked for has a method that there isn't", lambda: in_own("RSIP", METHOD, "RM: boot\r\n"),
        f"{VALUES}test_announcements_heard", "announced restart|graceful", "RM: boot", is_new=True),
    Row("A start that nobody asked for names one line", lambda: in_own("RSIP", ALL, r"\1aaln/1@"), f"{VALUES}test_announcements_heard",
        "RSIP for aaln/2@rgw.example.net", "RSIP for aaln/1@rgw.example.net", is_new=True),
    Row("A start that nobody asked for is announced again though answered", lambda: copied("RSIP", 1.3),
        f"{VALUES}test_announcements_heard", "no announcement after its answer", " s after its answer", is_new=True),
]
