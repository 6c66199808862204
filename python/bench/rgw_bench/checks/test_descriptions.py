"""Checks of local and remote session descriptions: what CRCX and MDCX answer, and what audits tell of it."""
import re
from dataclasses import dataclass

import pytest

from rgw_bench.mgcp import Message
from rgw_bench.dialogue import Dialogue, rfc

# The codecs of static payload types (RFC 3551, 6), and what may stand beside a codec that was asked for.
STATIC = {0: "PCMU", 3: "GSM", 4: "G723", 8: "PCMA", 9: "G722", 13: "CN", 15: "G728", 18: "G729"}
BESIDES = {"CN", "TELEPHONE-EVENT"}
REMOTE = "v=0\no=- 1 1 IN IP4 127.0.0.1\ns=-\nc=IN IP4 127.0.0.1\nt=0 0\nm=audio 40000 RTP/AVP {}"
# What undoes a call at both lines.
BOTH_LINES = """> DLCX {8} {line} MGCP 1.0 / C: {call}
< 250|200 {8}
> DLCX {9} {other} MGCP 1.0 / C: {call}
< 250|200 {9}"""


@dataclass(frozen=True)
class Description:
    """A session description: `port`, payload types and codecs of its audio stream, and its lines."""

    text: str
    port: int
    payloads: tuple[int, ...]

    def values(self, letter: str) -> list[str]:
        """What stands in the lines with this letter."""
        return [line[2:] for line in self.text.splitlines() if line.startswith(f"{letter}=")]

    def codecs(self) -> list[str]:
        """The names of its codecs, in upper case, in their order."""
        maps = {int(it[1]): it[2].upper() for it in re.finditer(r"(?m)^a=rtpmap:([0-9]{1,3}) ([^/\s]+)", self.text)}
        return [maps.get(it, STATIC.get(it, str(it))) for it in self.payloads]

    def packet_time(self) -> int | None:
        """The packet time in ms, where it is told."""
        found = re.search(r"(?m)^a=ptime:([0-9]{1,4})$", self.text)
        return int(found[1]) if found else None

    def origin(self) -> list[str]:
        """The words of o=: name, session, version, and the address."""
        return (self.values("o") + [""])[0].split()

    def without_origin(self) -> str:
        """Its lines, but for o=."""
        return "\n".join(line for line in self.text.splitlines() if not line.startswith("o="))


def rows(text: str) -> str:
    """A description as one line."""
    return text.replace("\n", " / ")


def described(gw: Dialogue, answer: Message) -> Description:
    """The first description of an answer, which has one with an audio stream."""
    text = answer.sdp[0] if answer.sdp else ""
    media = re.search(r"(?m)^m=audio ([0-9]{1,5}) RTP/AVP((?: [0-9]{1,3})+)[ \t]*$", text)
    came = f"{rows(text)}" if text else "no description"
    gw.due("a description with `m=audio PORT RTP/AVP PAYLOAD ..`", media is not None, came)
    assert media is not None
    return Description(text, int(media[1]), tuple(map(int, media[2].split())))


def created(gw: Dialogue, options: str = "") -> tuple[str, Description]:
    """The identifier of a new connection with these options, if any, and its local description."""
    more = {"L": options} if options else {}
    answer = gw.answer(200, gw.command("CRCX", C=gw.call, M="recvonly", **more), is_optional=bool(options))
    gw.due("has I", answer["I"], "no I")
    return str(answer["I"]), described(gw, answer)


def audited(gw: Dialogue, connection: str, item: str = "LC") -> Description:
    """The description that an audit of the connection tells."""
    return described(gw, gw.ask("AUCX", is_optional=True, I=connection, F=item))


@rfc("2.3.5", "3.4")
@pytest.mark.parametrize("codec", ["PCMU", "PCMA"])
def test_codec_asked_for(gw: Dialogue, codec: str) -> None:
    """The local description has the codec that was asked for, and no other"""
    _, made = created(gw, f"a:{codec}")
    others = set(made.codecs()) - BESIDES
    gw.due(f"m=audio with {codec} alone", others == {codec}, f"{', '.join(made.codecs())}")


@rfc("2.3.5", "3.4", is_open=True)
def test_codecs_in_their_order(gw: Dialogue) -> None:
    """The local description has the codecs in the order in which they were asked for"""
    _, made = created(gw, "a:PCMA;PCMU")
    named = [it for it in made.codecs() if it not in BESIDES]
    gw.due("m=audio with PCMA, PCMU", named == ["PCMA", "PCMU"], f"{', '.join(named)}")


@rfc("2.3.5", "3.4")
def test_codec_offered(gw: Dialogue) -> None:
    """The local description has no codec that the remote one doesn't offer"""
    answer = gw.ask("CRCX", sdp=REMOTE.format("8"), C=gw.call, M="sendrecv")
    named = set(described(gw, answer).codecs()) - BESIDES
    gw.due("m=audio with PCMA alone", named == {"PCMA"}, f"{', '.join(sorted(named))}")


@rfc("3.4")
def test_codec_maps(gw: Dialogue) -> None:
    """A payload type whose codec is fixed is mapped to that codec at 8,000 Hz, if at all (RFC 3551, 6)"""
    _, made = created(gw)
    for found in re.finditer(r"(?m)^a=rtpmap:(0|8) (\S+)", made.text):
        due = f"{STATIC[int(found[1])]}/8000"
        gw.due(f"a=rtpmap:{found[1]} {due}", found[2].upper() in (due, f"{due}/1"), f"{found[0]}")


@rfc("3.4")
def test_port(gw: Dialogue) -> None:
    """The local description has a port for RTP: an even one (RFC 3550, 11), and not 0, which says that there is no stream"""
    _, made = created(gw)
    gw.due("m=audio with a port from 1 to 65535", 0 < made.port < 65536, f"port {made.port}")
    gw.due("m=audio with an even port", made.port % 2 == 0, f"port {made.port}")


@rfc("2.1.3.2", "3.4")
def test_ports_of_a_line(gw: Dialogue) -> None:
    """Two connections of a line receive at two ports"""
    ports = [created(gw)[1].port for _ in range(2)]
    gw.due("m=audio with another port for each connection", len(set(ports)) == 2, f"ports {ports}")


@rfc("2.1.3.2", "3.4", needs=("other_line",), undo=BOTH_LINES)
def test_ports_of_lines(gw: Dialogue) -> None:
    """Connections of two lines receive at two ports"""
    _, here = created(gw)
    there = described(gw, gw.ask("CRCX", gw.other, C=gw.call, M="recvonly"))
    gw.due("m=audio with another port for each line", here.port != there.port, f"ports {[here.port, there.port]}")


@rfc("3.4")
def test_address(gw: Dialogue) -> None:
    """The local description has an address at which speech can be received"""
    _, made = created(gw)
    found = re.fullmatch(r"IN IP4 ([0-9]{1,3}(?:\.[0-9]{1,3}){3})(?:/\d+)?", (made.values("c") + [""])[0])
    gw.due("c=IN IP4 and an address", found, f"c={', '.join(made.values('c'))}")
    assert found is not None
    gw.due("c= with another address than 0.0.0.0", found[1] != "0.0.0.0", f"c={made.values('c')[0]}")


@rfc("2.3.5", "2.3.11", "3.4")
@pytest.mark.parametrize("time", [10, 20, 30])
def test_packet_time(gw: Dialogue, time: int) -> None:
    """The packet time that was asked for is told: in the description, if it tells one, and by an audit of L"""
    connection, made = created(gw, f"p:{time}")
    told = made.packet_time()
    gw.due(f"a=ptime:{time}, or none", told in (time, None), f"a=ptime:{told}")
    options = gw.ask("AUCX", is_optional=True, I=connection, F="L")["L"] or ""
    gw.due(f"L with p:{time}", re.search(rf"(?i)(?:^|[,\s])p:\s*{time}(?:\D|$)", options), f"L: {options}")


@rfc("2.3.6", "3.4")
def test_origin_of_a_change(gw: Dialogue) -> None:
    """A description that a modification changes has a later version in o= (RFC 2327, 6), and is answered"""
    connection, before = created(gw, "a:PCMU;PCMA")
    answer = gw.ask("MDCX", is_optional=True, C=gw.call, I=connection, L="a:PCMA")
    after = described(gw, answer)
    gw.due("another m= after MDCX with a:PCMA", after.without_origin() != before.without_origin(), f"m={' '.join(after.values('m'))}")
    old, new = before.origin(), after.origin()
    gw.due("o= with six words", len(old) == len(new) == 6, f"o={' '.join(old)} and o={' '.join(new)}")
    is_later = new[1] == old[1] and all(re.fullmatch("[0-9]+", it[2]) for it in (new, old)) and int(new[2]) > int(old[2])
    gw.due(f"o= with session {old[1]} and a version after {old[2]}", is_later, f"o={' '.join(new)}")


@rfc("2.3.6", "2.3.11", "3.4")
def test_origin_without_a_change(gw: Dialogue) -> None:
    """A modification of the mode alone leaves the local description as it is"""
    connection, before = created(gw)
    gw.ask("MDCX", is_optional=True, C=gw.call, I=connection, M="inactive")
    after = audited(gw, connection)
    is_same = after.without_origin() != before.without_origin() or after.origin() == before.origin()
    gw.due(f"o={' '.join(before.origin())}", is_same, f"o={' '.join(after.origin())}")


@rfc("3.4")
def test_line_ends(gw: Dialogue) -> None:
    """Each line of a description ends in CRLF (RFC 2327, 6)"""
    answer = gw.ask("CRCX", C=gw.call, M="recvonly")
    described(gw, answer)
    text = answer.raw[answer.raw.find(b"v=0"):]
    alone = re.findall(rb"[^\r\n]*(?<!\r)\n", text)
    ended = ", ".join(it.decode("latin-1").strip() for it in alone)
    gw.due("CRLF at the end of each line", not alone, f"LF alone behind {ended}")


@rfc("3.4")
def test_lines_in_their_order(gw: Dialogue) -> None:
    """A description has v, o, s, c, t and m, in this order (RFC 2327, 6)"""
    _, made = created(gw)
    letters = "".join(line[:1] for line in made.text.splitlines())
    gw.due("v, o, s, c, t and m", re.fullmatch("vosi?u?e*p*c?b*(tr*)+z?k?a*(mi?c*b*k?a*)+", letters), f"{letters}")


@rfc("2.3.11", "3.4")
def test_audited_description(gw: Dialogue) -> None:
    """An audit tells the local description that the creation gave"""
    connection, made = created(gw)
    told = audited(gw, connection)
    gw.due(rows(made.text), told.text == made.text, f"{rows(told.text)}")


@rfc("2.3.11", "3.4")
def test_audited_remote_description(gw: Dialogue) -> None:
    """An audit tells the stream of the remote description that was given"""
    answer = gw.ask("CRCX", sdp=REMOTE.format("0 8"), C=gw.call, M="sendrecv")
    told = audited(gw, str(answer["I"]), "RC")
    media, address = told.values("m"), told.values("c")
    gw.due("m=audio 40000 RTP/AVP 0 8", (told.port, told.payloads) == (40000, (0, 8)), f"m={', '.join(media)}")
    gw.due("c=IN IP4 127.0.0.1", address == ["IN IP4 127.0.0.1"], f"c={', '.join(address)}")
