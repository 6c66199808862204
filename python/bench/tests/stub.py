"""A gateway that is a stub: it answers as a function says, in a thread of its own, on the loopback."""

import socket
import threading
from collections.abc import Callable, Iterable

from rgw_bench import mgcp
from rgw_bench.mgcp import Message
from rgw_bench.wire import Address

# What a stub answers to a command: datagrams.
Answers = Callable[[Message], Iterable[bytes]]


def obliging(message: Message) -> list[bytes]:
    """Answers each command with 200."""
    return [] if message.is_response else [mgcp.response(200, message.id)]


class Stub:
    """Serves at a free port of 127.0.0.1 until it is closed; `heard` has what came."""

    def __init__(self, answers: Answers = obliging) -> None:
        self.answers, self.heard = answers, list[Message]()
        self.socket = socket.socket(socket.AF_INET, socket.SOCK_DGRAM)
        self.socket.bind(("127.0.0.1", 0))
        self.socket.settimeout(0.1)
        self.address: Address = self.socket.getsockname()
        self.source: Address = ("127.0.0.1", 9)
        self._is_open = True
        self._thread = threading.Thread(target=self._serve, daemon=True)
        self._thread.start()

    def __enter__(self) -> "Stub":
        return self

    def __exit__(self, *_: object) -> None:
        self.close()

    def _serve(self) -> None:
        while self._is_open:
            try:
                data, self.source = self.socket.recvfrom(65536)
            except OSError:
                continue
            for message in mgcp.messages(data):
                if isinstance(message, Message):
                    self.heard.append(message)
                    for answer in self.answers(message):
                        self.say(answer)

    def say(self, data: bytes, to: Address | None = None) -> None:
        """Sends this to whoever spoke last, or to this address."""
        try:
            self.socket.sendto(data, to or self.source)
        except OSError:
            pass

    def close(self) -> None:
        """Ends it."""
        self._is_open = False
        self._thread.join()
        self.socket.close()
