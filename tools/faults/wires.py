"""Scenarios of a gateway that is served for twenty turns over a wire that fails once: at each turn, and at each datagram that is
handed to it (RFC 3435, 3.5). What is sent was worked out from docs/PROTOCOL.md."""

HEAD = """memory
# A gateway that is served for twenty turns, over a wire that fails once: at each turn in turn, and at each datagram that is handed
# to it. The gateway announces itself and is asked for events; line 1 goes off hook and flashes, the flash waits for the next
# request, a connection comes and goes, an audit comes twice, and line 2 goes off hook. Each message of the gateway's own goes out
# twice before it is answered, but for the last. Drawn by tools/faults/draw.""".split("\n")

AUDIT = "AUEP 2001 aaln/1@~¶F: ES¶"
ANSWER = "200 2001 OK¶ES: L/hu¶"
RSIP = "RSIP 1 *@~¶RM: restart¶"
LIFTED = "NTFY 10000000 aaln/1@~¶X: A1¶O: L/hd¶"
FLASHED = "NTFY 10000001 aaln/1@~¶X: A2¶O: L/hf¶"
OWN = "o=- 1 1 IN IP4 127.0.0.1¶s=-¶c=IN IP4 127.0.0.1¶t=0 0¶m=audio 3008 RTP/AVP 0 8¶a=ptime:20¶"

# What the wire gives, turn by turn, and the datagram that is handed to it then, if there is one.
TURNS = [
    ("at 1", RSIP),
    ("at 501", RSIP),
    ("datagram 200 1 OK¶", None),
    (f"datagram {AUDIT}", ANSWER),
    ("datagram RQNT 2002 aaln/1@~¶X: A1¶R: L/hd(N),L/hf(N)¶", "200 2002 OK¶"),
    ("phone 1 off", LIFTED),
    ("at 1001", LIFTED),
    ("at 1000", None),
    ("phone 17 off", None),
    ("datagram 200 10000000 OK¶K:¶", "000 10000000¶"),
    ("phone 1 flash", None),
    ("datagram RQNT 2003 aaln/1@~¶X: A2¶R: L/hf(N)¶", f"200 2003 OK¶.¶{FLASHED}"),
    ("at 1501", FLASHED),
    ("datagram 200 10000001 OK¶", None),
    ("datagram CRCX 2004 aaln/2@~¶C: 1A¶M: recvonly¶", f"200 2004 OK¶I: 1¶¶v=0¶{OWN}"),
    (f"datagram {AUDIT}", ANSWER),
    ("datagram DLCX 2005 aaln/2@~¶", "250 2005 OK¶"),
    ("datagram AUEP 2006 aaln/17@~¶", "500 2006¶"),
    ("phone 2 off", "NTFY 20000000 aaln/2@~¶X: 0¶O: L/hd¶"),
    ("end", None),
]
SENT = [sent for _, sent in TURNS if sent is not None]

# How both lines stand then, whatever failed.
ITEMS = "ES,I,O,Q,R,S,T,X"
STATE = [
    (f"datagram AUEP 3001 aaln/1@~¶F: {ITEMS}¶", "200 3001 OK¶ES: L/hd¶I:¶O:¶Q: step,process¶R: L/hf(N)¶S:¶T:¶X: A2¶"),
    (f"datagram AUEP 3002 aaln/2@~¶F: {ITEMS}¶", "200 3002 OK¶ES: L/hd¶I:¶O:¶Q: step,process¶R:¶S:¶T:¶X: 0¶"),
]


def served(plan, wire, counts, sent):
    """A plan that is served to its end, the counts then, and all that was handed to the wire."""
    yield from (f"gives {it}" for it in plan)
    yield wire
    yield "serve 100"
    yield f"served {counts}"
    yield from (f"sent {it}" for it in sent)
    yield "sent none"


def state():
    """The telephones, what falls due, and audits of both lines."""
    yield from ["hook 1 off", "hook 2 off", "due 2001"]
    for plan, sent in STATE:
        yield from [f"gives {plan}", "wire", "serve 1", f"sent {sent}", "sent none"]


def repeat_of(place):
    """What brings the datagram of this turn once more, and what is sent then; nothing where it was sent twice already."""
    given, sent = TURNS[place]
    if given.startswith("datagram"):
        # Of an answer with a notification behind it the stored answer comes alone.
        return given, sent.split(".¶")[0] if sent.startswith("200 2003") else sent
    return ("at 2001", sent) if sent == SENT[-1] else None


def scenarios():
    yield from HEAD
    yield "\n= Nothing fails"
    plan = [given for given, _ in TURNS]
    yield from served(plan, "wire", "20 turns, 2 refused, 0 not received, 0 not sent, ended", SENT)
    yield from state()
    for turn in range(len(TURNS)):
        yield f"\n= The wire fails at turn {turn + 1}, and gives at the next what it would have given"
        late = [*plan[:turn], "fault", *plan[turn:]]
        yield from served(late, "wire", "21 turns, 2 refused, 1 not received, 0 not sent, ended", SENT)
        yield from state()
    handed = [place for place, (_, sent) in enumerate(TURNS) if sent is not None]
    for send, place in enumerate(handed, 1):
        yield f"\n= The wire fails to take datagram {send}, and the gateway goes on as if it were lost behind it"
        yield from served(plan, f"wire {send}", "20 turns, 2 refused, 0 not received, 1 not sent, ended", SENT)
        yield from state()
        again = repeat_of(place)
        if again:
            yield from ["# The repeat.", f"gives {again[0]}", "wire", "serve 1", f"sent {again[1]}", "sent none"]
