"""Scenarios of datagrams that are cut or have a byte changed: those of other scenarios, each as it is read, and through the gateway.

What is expected is what gateway.py and messages.py answer, which also must answer the rows themselves as they are told.
"""
import re
from itertools import groupby

from gateway import ALL_ITEMS, Gateway
from messages import kind, parts
from told import AGENT, SCRIPTS, blocks, in_full, scenario

# Of which scenario the datagrams are, from which to which, and how many lines its gateway has.
REQUESTS = [("dialling.txt", "An embedded request collects digits", 0, 2, 16)]
CONNECTIONS = [
    ("connections.txt", "A line has four connections, each at a port of its own, and no fifth", 0, 7, 1),
    ("connections.txt", "A connection is modified and deleted", 1, 9, 1),
]
TRANSACTIONS = [("transactions.txt", "A datagram has several texts, and one that stands there twice is answered twice", 0, 1, 16)]
# Which rows of calls are requests of their own, with an id that can be cut.
CALLS = ["Each fault has its code", "A request needs X", "A gateway takes no notification"]
# The bytes that stand in for each byte.
CHANGED = [0, 255]
# How long a row with more than one value may be.
WIDEST = 400


class Datagram:
    """A datagram of a row: what stands before it, the gateway then, its bytes, and the answer that is told."""

    def __init__(self, before, gateway, text, wanted, more=""):
        self.before, self.gateway, self.bytes = before, gateway, text
        self.name = " ".join(text.decode().split()[:2]) + more
        given = ".\n".join(gateway.later().hear(text))
        if given != wanted:
            raise SystemExit(f"{self.name}: {given!r}, and not {wanted!r} as it is told")

    def others(self):
        """What becomes of it: how, and the bytes."""
        for length in range(len(self.bytes)):
            yield f"the first {length} bytes of {self.name}", self.bytes[:length]
        for place in range(len(self.bytes)):
            for byte in CHANGED:
                changed = self.bytes[:place] + bytes([byte]) + self.bytes[place + 1 :]
                yield f"{self.name} with {byte} for byte {place + 1}", changed


def of_story(file, title, begin, end, lines):
    """The datagrams of a scenario, each behind all that stands before it."""
    told, gateway, before, found = scenario(file, title), Gateway(lines), [], []
    before += told.settings
    for step in told.steps:
        if step.datagram is not None:
            found.append(Datagram([*before], gateway.later(), step.datagram, step.answer()))
            gateway.hear(step.datagram)
            if len(found) == end:
                return found[begin:]
        before += [*step.lines, *step.printed]
    raise SystemExit(f"{file}: {title} has too few datagrams")


def of_calls(title):
    """The datagrams of the rows of calls under a title, at Ready."""
    for row in blocks(SCRIPTS / "request_values.txt")[title]:
        call, *lines, wanted = row.split("  ")
        if call == "request":
            lines = ["RQNT 1 aaln/1@~", "X: 1", *lines]
        text = in_full("".join(f"{line}\r\n" for line in lines))
        text = re.sub("^([A-Z]{4}) 1 ", r"\g<1> 2001 ", text)
        answer = re.sub(r"^([0-9]{3}) 1\b", r"\g<1> 2001", wanted)
        yield Datagram([], Gateway(), text.encode(), f"{answer}\n", f" with {lines[-1]}" * (len(lines) > 1))


def value(text):
    """Bytes as a row says them."""
    text = text.replace(b"rgw.example.net MGCP 1.0", b"\0~").decode("latin-1")
    for plain, short in [("\0~", "~"), ("\r\n", "¶")]:
        text = text.replace(plain, short)
    text = re.sub(r"[\\{}\x00-\x1f\x7f-\xb5\xb7-\xff]", lambda it: f"\\x{ord(it[0]):02x}", text)
    text = re.sub(r"^ | $|(?<= ) ", r"\\s", text)
    return text or "''"


def rows(call, told):
    """Rows of a call: values that follow one another and have one answer stand in one row."""
    for answer, alike in groupby(told, key=lambda it: it[1]):
        values, width = [], 0
        for text, _ in alike:
            if values and width + len(text) > WIDEST:
                yield f"{call}  {'  '.join(values)}  {answer}"
                values, width = [], 0
            values.append(text)
            width += len(text) + 2
        yield f"{call}  {'  '.join(values)}  {answer}"


def read_alone(datagrams):
    """What each text is read as that some cut or changed datagram has; a datagram of several messages is parted too."""
    seen = set()
    for datagram in datagrams:
        others = [text for _, text in datagram.others()]
        if len(parts(datagram.bytes)) > 1:
            # (What a row says that a call gives has no carriage return by itself.)
            cut = [it for it in others[: len(datagram.bytes)] if not it.endswith(b"\r")]
            yield f"\n= {datagram.name} and what shares its datagram are parted, cut anywhere"
            yield from rows("parts", [(value(it), said_parts(it)) for it in cut])
            others = [part for it in others for part in parts(it)]
        new = [it for it in dict.fromkeys(others) if it not in seen]
        seen.update(new)
        yield f"\n= {datagram.name} is read as its bytes say, cut anywhere and with each byte changed"
        yield from rows("message", [(value(it), kind(it)) for it in new])


def said_parts(datagram):
    """Its parts as a row says them."""
    return "".join(f"{it.decode()}|" for it in parts(datagram)).replace("\r\n", "¶").replace("\n", "\\n")


def audit(gateway, id, moment):
    """An audit of all of line 1, and its answer."""
    line = gateway.lines[0].items()
    told = [f"{it}: {line[it]}".rstrip() for it in ALL_ITEMS]
    asked = ["<", f"AUEP {id} aaln/1@~", f"F: {','.join(ALL_ITEMS)}", "--"]
    return [*asked, f"> {moment}", f"200 {id} OK", *told, "--"]


def shown(gateway):
    return ["show 1", gateway.lines[0].shown()]


PIECES = """
= piece silent
raw 127.0.0.1:2727 {1}
show 1
line 1 on signals - connections {2} lost 0
wait 30000

= piece answered
raw 127.0.0.1:2727 {1}
> {3}
{4}
--
show 1
line 1 on signals - connections {2} lost 0
wait 30000""".split("\n")


def heard(text):
    """A datagram as a step says it; that of no bytes has no lines."""
    return [f"raw {AGENT} {text.hex()}"] if text else ["<", "--"]


def step_of(gateway, text, answers, moment):
    """A datagram that changes nothing, its answer, and the line as before; and then 30 seconds go by."""
    connections = gateway.lines[0].shown().split()[6]
    lines = ".\n".join(answers).splitlines()
    if text and len(lines) == 1:
        return [f"do answered | {text.hex()} | {connections} | {moment} | {lines[0]}"]
    if text and not lines:
        return [f"do silent | {text.hex()} | {connections}"]
    sent = [f"> {moment}", *lines, "--"] if lines else []
    return [*heard(text), *sent, *shown(gateway), "wait 30000"]


def through_the_gateway(datagrams):
    """Through the gateway: what changes nothing one behind the other, and what changes something in a scenario of its own."""
    seen = {}
    for datagram in datagrams:
        told = seen.setdefault("\n".join(datagram.before), set())
        yield from told_of(datagram, told)


def told_of(datagram, told):
    """The scenarios of a datagram, without the texts that were told before of the same gateway."""
    at = datagram.gateway
    moment, steps, changing = 1000, [], []
    for how, text in datagram.others():
        if text in told:
            continue
        told.add(text)
        then = at.later()
        answers = then.hear(text)
        if then.is_like(at):
            steps += step_of(at, text, answers, moment)
            moment += 30000
        else:
            changing.append((how, text, then, answers))
    yield f"\n= {datagram.name} that is cut or has a byte changed leaves all as it was where it isn't another command"
    yield from [*datagram.before, *audit(at, 900000001, 1000), *steps, *audit(at, 900000002, moment)]
    for how, text, then, answers in changing:
        lines = ".\n".join(answers).splitlines()
        yield f"\n= A command is {how}"
        yield from [*datagram.before, *heard(text), "> 1000", *lines, "--", *shown(then), *audit(then, 900000001, 1000)]
