"""A residential gateway for MGCP 1.0 (RFC 3435): the library librgw in Python.

    from rgw import Gateway

    gateway = Gateway(open("gateway.toml", "rb").read())
    for output in gateway.tick(1000):
        print(output.moment, output.to, output.data)

A gateway is given one event at a time and gives the datagrams that it sends. It has no thread, socket or clock: the same calls give
the same bytes. `rgw.world` has a network between a gateway and a call agent, in the gateway's own time, and `rgw.pytest_plugin` fixtures
for tests of call agents. `rgw.__version__` ends with `+unproved` where the library is one of `tools/unproved library`, of which nothing is
proved. It needs Python 3.11 or later.
"""

import sys

if sys.version_info < (3, 11):
    raise ImportError("rgw needs Python 3.11 or later, and this is %d.%d" % sys.version_info[:2])

from rgw.gateway import Address, Connection, Gateway, GivenUp, Line, Message, Outcome, Output, Signal
from rgw.library import IS_UNPROVED, VERSION
from rgw.numbers import BadValue, Closed, ConfigFault, EventRefused, Number, OutOfMemory, RgwError

__version__ = f"{VERSION // 10000}.{VERSION // 100 % 100}.{VERSION % 100}{'+unproved' if IS_UNPROVED else ''}"

__all__ = [
    "Address",
    "BadValue",
    "Closed",
    "ConfigFault",
    "Connection",
    "EventRefused",
    "Gateway",
    "GivenUp",
    "Line",
    "Message",
    "Number",
    "OutOfMemory",
    "Outcome",
    "Output",
    "RgwError",
    "Signal",
]
