"""A test bench for MGCP 1.0 gateways and call agents (RFC 3435), in pure Python.

`mgcp` reads and writes messages, `wire` has sockets whose datagrams bring the moment at which they came, `gateway` is the call agent's
end of a check. The checks stand as text in `checks/*.check`; `plugin` plays them as tests of pytest, and `commands` has the programs.
"""

__version__ = "0.1.0"
