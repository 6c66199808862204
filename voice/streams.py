"""The media of a connection as RTP (RFC 3550, 3551), by GStreamer: one pipeline receives, another sends, by one socket.

Both follow the machine's clock from its beginning on: what GStreamer calls a time is what `time.monotonic_ns` says. So a change of the
one leaves the other as it is, and pieces of sound of several connections can be mixed by their moments.
"""
from __future__ import annotations

import random
import socket
from collections.abc import Iterator
from dataclasses import dataclass

import gi
import numpy as np

gi.require_version("Gst", "1.0")
from gi.repository import Gio, Gst  # noqa: E402

from following import MILLISECOND, Address, Connection, text_of  # noqa: E402
from sounds import RATE, SAMPLE, Samples  # noqa: E402

Gst.init(None)
CLOCK = Gst.SystemClock.obtain()
# What is said is handed over so long before it goes out, in nanoseconds. What is later by more isn't said any more.
AHEAD, TOO_LATE = 60 * MILLISECOND, 200 * MILLISECOND
# What came over a connection in conference is said over the others so much later: a piece that comes a little late leaves no hole.
BEHIND = AHEAD + 60 * MILLISECOND
# How long is waited for a packet that others overtook, in ms.
OVERTAKEN = 60
# The header of a packet, in bytes.
HEAD = 12
# Codecs by their payload types (RFC 3551, 6): what encodes, packs, unpacks and decodes them.
CODECS = {
    "PCMU": (0, "mulawenc", "rtppcmupay", "rtppcmudepay", "mulawdec"),
    "PCMA": (8, "alawenc", "rtppcmapay", "rtppcmadepay", "alawdec"),
}
SENDS = """
    appsrc name=mouth is-live=true format=time block=false
        caps="audio/x-raw,format=S16LE,rate={rate},channels=1,layout=interleaved"
    ! valve name=gate
    ! {encode} ! {pack} min-ptime={time} max-ptime={time} perfect-rtptime=false
        ssrc={source} timestamp-offset={offset} seqnum-offset={number}
    ! multiudpsink name=out sync=true async=false close-socket=false clients={remote}
"""
# Packets have the moments that their sender gives them, from when the first of them came: so what is heard has no break where one is late.
RECEIVES = """
    rtpbin name=session latency={overtaken} buffer-mode=synced
    udpsrc name=in close-socket=false caps="application/x-rtp,media=audio,clock-rate={rate}" ! session.recv_rtp_sink_0
"""
HEARS = "{unpack} ! {decode} ! appsink name=ear sync=false async=false max-buffers=1000 drop=true"
UNKNOWN = "fakesink sync=false async=false"


class PortTaken(Exception):
    """A port that another program has."""


def socket_at(address: Address) -> Gio.Socket:
    """A socket for the media of a connection."""
    made = socket.socket(socket.AF_INET, socket.SOCK_DGRAM)
    made.setsockopt(socket.SOL_SOCKET, socket.SO_RCVBUF, 1_000_000)
    try:
        made.bind(address)
    except OSError as error:
        made.close()
        raise PortTaken(f"no socket at {text_of(address)}: {error.strerror}") from error
    return Gio.Socket.new_from_fd(made.detach())


def play(pipeline: Gst.Pipeline) -> None:
    """Starts it, by the machine's clock."""
    pipeline.use_clock(CLOCK)
    pipeline.set_start_time(Gst.CLOCK_TIME_NONE)
    pipeline.set_base_time(0)
    pipeline.set_state(Gst.State.PLAYING)


def faults(pipeline: Gst.Pipeline) -> Iterator[str]:
    """What GStreamer says went wrong."""
    while message := pipeline.get_bus().pop_filtered(Gst.MessageType.ERROR):
        error, _ = message.parse_error()
        yield error.message


@dataclass
class Counts:
    """What came and went over a connection. Jitter is in ms."""

    sent: int = 0
    received: int = 0
    # Received while the mode didn't let it be heard.
    unheard: int = 0
    lost: int = 0
    late: int = 0
    twice: int = 0
    jitter: float = 0.0


class Ear:
    """The end of one stream that comes in: decoded samples, one piece behind another."""

    def __init__(self, sink: Gst.Element):
        self.sink = sink
        self.next: int | None = None

    def pieces(self) -> Iterator[tuple[int, Samples]]:
        """Each piece that came, with its moment in nanoseconds."""
        while sample := self.sink.emit("try-pull-sample", 0):
            buffer = sample.get_buffer()
            samples = np.frombuffer(buffer.extract_dup(0, buffer.get_size()), "<i2").astype(np.float32)
            if len(samples):
                yield self.moment_of(buffer.pts, len(samples)), samples

    def moment_of(self, came: int, count: int) -> int:
        """A piece stands behind the one before, where it is of that time by half its length."""
        length = count * SAMPLE
        if self.next is None or abs(came - self.next) > length // 2:
            self.next = came
        moment = self.next
        self.next += length
        return moment


class Receiver:
    """What comes to a socket: streams of whoever sends there, each put in order and decoded by its payload type."""

    def __init__(self, at: Gio.Socket):
        self.ears: list[Ear] = []
        self.orders: list[Gst.Element] = []
        self.pipeline = Gst.parse_launch(RECEIVES.format(rate=RATE, overtaken=OVERTAKEN))
        self.pipeline.get_by_name("in").set_property("socket", at)
        session = self.pipeline.get_by_name("session")
        session.connect("request-pt-map", lambda _session, _number, kind: self.form_of(kind))
        session.connect("new-jitterbuffer", lambda _session, order, _number, _source: self.orders.append(order))
        session.connect("pad-added", lambda _session, pad: self.join(pad))
        play(self.pipeline)

    @staticmethod
    def form_of(kind: int) -> Gst.Caps:
        """What packets of a payload type are."""
        names = {number: name for name, (number, *_) in CODECS.items()}
        name = names.get(kind, "X-UNKNOWN")
        return Gst.Caps.from_string(f"application/x-rtp,media=audio,clock-rate={RATE},encoding-name={name},payload={kind}")

    def join(self, pad: Gst.Pad) -> None:
        """A stream of a payload type begins."""
        name = pad.get_name()
        if not name.startswith("recv_rtp_src_"):
            return
        kind = int(name.rpartition("_")[2])
        known = [(unpack, decode) for number, _, _, unpack, decode in CODECS.values() if number == kind]
        text = HEARS.format(unpack=known[0][0], decode=known[0][1]) if known else UNKNOWN
        branch = Gst.parse_bin_from_description(text, True)
        self.pipeline.add(branch)
        branch.sync_state_with_parent()
        pad.link(branch.get_static_pad("sink"))
        if known:
            self.ears.append(Ear(branch.get_by_name("ear")))

    def pieces(self) -> Iterator[tuple[int, Samples]]:
        for ear in list(self.ears):
            yield from ear.pieces()

    def count(self, counts: Counts) -> None:
        """Takes over what was counted by what puts packets in order."""
        told = [order.get_property("stats") for order in list(self.orders)]

        def sum_of(name: str) -> int:
            return sum(stats.get_uint64(name)[1] for stats in told)

        counts.lost, counts.late, counts.twice = sum_of("num-lost"), sum_of("num-late"), sum_of("num-duplicates")
        jitters = [stats.get_uint64("avg-jitter")[1] / MILLISECOND for stats in told]
        counts.jitter = max([counts.jitter, *jitters])

    def end(self) -> None:
        self.pipeline.set_state(Gst.State.NULL)
        self.ears, self.orders = [], []


class Numbering:
    """By what the packets of a connection are numbered, whoever sends them (RFC 3550, 5.1)."""

    def __init__(self) -> None:
        self.source, self.offset = random.getrandbits(31), random.getrandbits(31)
        self.number = random.getrandbits(15)
        # The moment of what its last sender would have sent next.
        self.next: int | None = None


class Sender:
    """What goes out of a socket: one stream, which goes on where another sender of it ended."""

    def __init__(self, at: Gio.Socket, connection: Connection, numbering: Numbering):
        self.connection, self.numbering = connection, numbering
        _, encode, pack, _, _ = CODECS[connection.codec]
        text = SENDS.format(
            rate=RATE, encode=encode, pack=pack, time=connection.packet_time * MILLISECOND, source=numbering.source,
            offset=numbering.offset, number=numbering.number, remote=text_of(connection.remote),
        )
        self.pipeline = Gst.parse_launch(text)
        self.mouth, self.gate = self.pipeline.get_by_name("mouth"), self.pipeline.get_by_name("gate")
        self.out = self.pipeline.get_by_name("out")
        self.out.set_property("socket", at)
        self.next, numbering.next = numbering.next, None
        self.is_new = True
        # How many packets were handed over and had been sent, since that goes on without a break.
        self.handed = self.sent_before = 0
        play(self.pipeline)

    @property
    def length(self) -> int:
        """How many samples a packet has."""
        return self.connection.packet_time * RATE // 1000

    def is_other_than(self, connection: Connection) -> bool:
        """Whether that wants another pipeline."""
        return (self.connection.codec, self.connection.packet_time) != (connection.codec, connection.packet_time)

    def aim(self, connection: Connection) -> None:
        """It sends to where this connection says, from now on."""
        if connection.remote != self.connection.remote:
            self.out.set_property("clients", text_of(connection.remote))
        self.connection = connection

    def turn(self, is_on: bool) -> None:
        """It sends, or is silent, at once."""
        self.gate.set_property("drop", not is_on)
        if not is_on:
            self.next = None

    def due(self, now: int) -> Iterator[tuple[int, int]]:
        """The moment and the length of each packet that is to be handed over by now."""
        if self.next is None or now - self.next > TOO_LATE:
            self.next, self.is_new = now, True
            self.handed, self.sent_before = 0, self.sent
        while self.next < now + AHEAD:
            yield self.next, self.length
            self.next += self.length * SAMPLE

    def push(self, moment: int, samples: Samples) -> None:
        buffer = Gst.Buffer.new_wrapped(samples.astype("<i2").tobytes())
        buffer.pts, buffer.duration = moment, len(samples) * SAMPLE
        if self.is_new:
            buffer.set_flags(Gst.BufferFlags.DISCONT)
            self.is_new = False
        self.handed += 1
        self.mouth.emit("push-buffer", buffer)

    @property
    def sent(self) -> int:
        return self.out.get_property("bytes-served") // (HEAD + self.length)

    def end(self) -> int:
        """How many packets it sent."""
        self.pipeline.set_state(Gst.State.NULL)
        sent = self.sent
        self.numbering.number = (self.numbering.number + sent) % 65536
        if self.next is not None:
            left = max(0, self.handed - (sent - self.sent_before))
            self.numbering.next = self.next - left * self.length * SAMPLE
        return sent


class Guests:
    """What the other connections of a conference say here: pieces by the moments at which they came, said together so much later."""

    def __init__(self) -> None:
        self.pieces: list[tuple[int, Samples]] = []

    def put(self, moment: int, samples: Samples) -> None:
        self.pieces = [piece for piece in self.pieces if moment - piece[0] < TOO_LATE]
        self.pieces.append((moment, samples))

    def take(self, moment: int, count: int) -> Samples:
        """What is said from this moment on, which is asked for but once."""
        said, left = np.zeros(count, np.float32), []
        for came, samples in self.pieces:
            first = (came + BEHIND - moment) // SAMPLE
            end = first + len(samples)
            if first < count and end > 0:
                said[max(0, first):end] += samples[max(0, -first):max(0, count - first)]
            if end > count:
                left.append((came, samples))
        self.pieces = left
        return said


class Stream:
    """The media of a connection: what it was told to be, and what runs for it."""

    def __init__(self, connection: Connection):
        self.connection = connection
        self.counts = Counts()
        self.numbering = Numbering()
        self.sender: Sender | None = None
        self.sent_before = 0
        self.guests = Guests()
        self.socket = socket_at(connection.local)
        self.receiver = Receiver(self.socket)
        self.settle()

    def change(self, connection: Connection) -> None:
        """It is another from now on, but for its own port. What stays goes on."""
        self.connection = connection
        self.settle()

    def settle(self) -> None:
        """Sends as the connection says."""
        if self.sender is not None and self.sender.is_other_than(self.connection):
            self.end_sender()
        if self.sender is None and self.connection.sends and self.connection.codec in CODECS:
            self.sender = Sender(self.socket, self.connection, self.numbering)
        if self.sender is not None:
            if self.connection.remote is not None:
                self.sender.aim(self.connection)
            self.sender.turn(self.connection.sends)

    def end_sender(self) -> None:
        if self.sender is not None:
            self.sent_before += self.sender.end()
            self.sender = None

    def heard(self) -> Iterator[tuple[int, Samples]]:
        """Each piece that came and is heard. What came meanwhile, where the mode receives nothing, is dropped."""
        for moment, samples in self.receiver.pieces():
            self.counts.received += 1
            if self.connection.receives:
                yield moment, samples
            else:
                self.counts.unheard += 1

    def due(self, now: int) -> Iterator[tuple[int, int]]:
        if self.sender is not None and self.connection.sends:
            yield from self.sender.due(now)

    def count(self) -> None:
        self.counts.sent = self.sent_before + (self.sender.sent if self.sender else 0)
        self.receiver.count(self.counts)

    def faults(self) -> Iterator[str]:
        yield from faults(self.receiver.pipeline)
        if self.sender is not None:
            yield from faults(self.sender.pipeline)

    def end(self) -> None:
        """What came until now was heard before. Its socket closes."""
        self.end_sender()
        self.count()
        self.receiver.end()
        self.socket.close()


def samples_of_file(path: str) -> Samples:
    """The samples of a WAV file, as one channel, as often a second as codecs want them."""
    text = (
        f'filesrc name=file ! wavparse ! audioconvert ! audioresample ! audio/x-raw,format=S16LE,rate={RATE},channels=1'
        " ! appsink name=end sync=false max-buffers=0"
    )
    pipeline = Gst.parse_launch(text)
    pipeline.get_by_name("file").set_property("location", path)
    pipeline.set_state(Gst.State.PLAYING)
    end, read, faulty = pipeline.get_by_name("end"), [], list(faults(pipeline))
    while not faulty and not end.get_property("eos"):
        if sample := end.emit("try-pull-sample", 100 * MILLISECOND):
            buffer = sample.get_buffer()
            read.append(np.frombuffer(buffer.extract_dup(0, buffer.get_size()), "<i2"))
        faulty = list(faults(pipeline))
    pipeline.set_state(Gst.State.NULL)
    if faulty or not read:
        raise ValueError(f"{path}: {faulty[0] if faulty else 'no sound'}")
    return np.concatenate(read)
