"""Faults of session descriptions."""
from __future__ import annotations

import re

from .faults import in_answer
from .rows import Row

FILE = "test_descriptions.py::"


def odd(found: re.Match[str]) -> str:
    """The port behind the one that was found."""
    return f"m=audio {int(found[1]) + 1} "


def ended_by_line_feeds(found: re.Match[str]) -> str:
    """The description with LF in place of CRLF."""
    return found[0].replace("\r\n", "\n")


def later(found: re.Match[str]) -> str:
    """The origin with the next version."""
    return f"{found[1]}{int(found[2]) + 1}"


ORIGIN = r"^(o=\S+ \S+ )(\d+)"

ROWS = [
    Row("Whatever codec is asked for, PCMU comes", lambda: in_answer("CRCX", r"RTP/AVP 8\b", "RTP/AVP 0"),
        f"{FILE}test_codec_asked_for[PCMA]", "m=audio with PCMA alone", "PCMU"),
    Row("All codecs come beside the one that is asked for", lambda: in_answer("CRCX", r"RTP/AVP 0\b", "RTP/AVP 0 8"),
        f"{FILE}test_codec_asked_for[PCMU]", "m=audio with PCMU alone", "PCMU, PCMA"),
    Row("Codecs come that weren't offered", lambda: in_answer("CRCX", r"RTP/AVP 8\b", "RTP/AVP 8 0"), f"{FILE}test_codec_offered",
        "m=audio with PCMA alone", "PCMA, PCMU"),
    Row("PCMU is mapped to 16,000 Hz", lambda: in_answer("CRCX", r"^a=ptime", "a=rtpmap:0 PCMU/16000\r\na=ptime"),
        f"{FILE}test_codec_maps", "a=rtpmap:0 PCMU/8000", "a=rtpmap:0 PCMU/16000"),
    Row("The port is 0", lambda: in_answer("CRCX", r"m=audio \d+ ", "m=audio 0 "), f"{FILE}test_port", "from 1 to 65535", "port 0"),
    Row("The port is odd", lambda: in_answer("CRCX", r"m=audio (\d+) ", odd), f"{FILE}test_port", "even port", "port 3001"),
    Row("Connections of a line have one port", lambda: in_answer("CRCX", r"m=audio \d+ ", "m=audio 3000 "),
        f"{FILE}test_ports_of_a_line", "another port for each connection", "[3000, 3000]"),
    Row("Connections of two lines have one port", lambda: in_answer("CRCX", r"m=audio \d+ ", "m=audio 3000 "),
        f"{FILE}test_ports_of_lines", "another port for each line", "[3000, 3000]"),
    Row("The address is 0.0.0.0", lambda: in_answer("CRCX", r"^c=IN IP4 \S+", "c=IN IP4 0.0.0.0"), f"{FILE}test_address",
        "another address than 0.0.0.0", "c=IN IP4 0.0.0.0"),
    Row("There is no address", lambda: in_answer("CRCX", r"^c=.*\r\n", ""), f"{FILE}test_address", "c=IN IP4", "c="),
    Row("The packet time is always 20 ms", lambda: in_answer("CRCX", r"^a=ptime:\d+", "a=ptime:20"), f"{FILE}test_packet_time[30]",
        "a=ptime:30", "a=ptime:20"),
    Row("The packet time is told as 20 ms", lambda: in_answer("AUCX", r"p:\d+", "p:20"), f"{FILE}test_packet_time[10]", "L with p:10",
        "p:20"),
    Row("The origin doesn't change with the description", lambda: in_answer("MDCX", ORIGIN, r"\g<1>1"),
        f"{FILE}test_origin_of_a_change", "a version after 1", "o=-"),
    Row("A changed description isn't answered", lambda: in_answer("MDCX", r"(?s)\r\n\r\nv=0.*", "\r\n"),
        f"{FILE}test_origin_of_a_change", "a description", "no description"),
    Row("The origin changes without the description", lambda: in_answer("AUCX", ORIGIN, later), f"{FILE}test_origin_without_a_change",
        "o=-", "o=-"),
    Row("Lines of a description end in LF alone", lambda: in_answer("CRCX", r"(?s)^v=0.*", ended_by_line_feeds), f"{FILE}test_line_ends",
        "CRLF at the end of each line", "LF alone behind v=0"),
    Row("A description has its time before its subject", lambda: in_answer("CRCX", r"(s=-\r\n)(c=.*\r\n)(t=0 0\r\n)", r"\3\1\2"),
        f"{FILE}test_lines_in_their_order", "v, o, s, c, t and m", "votscma"),
    Row("An audit tells another local description than the creation", lambda: in_answer("AUCX", r"m=audio \d+ ", "m=audio 4000 "),
        f"{FILE}test_audited_description", "m=audio 3000", "m=audio 4000"),
    Row("An audit tells another remote description than was given", lambda: in_answer("AUCX", r"m=audio \d+ ", "m=audio 4000 "),
        f"{FILE}test_audited_remote_description", "m=audio 40000 RTP/AVP 0 8", "m=audio 4000"),
]
