"""Finds the page of a gateway that runs on this machine: of the program that has its telephones' socket, the TCP socket that listens."""
from __future__ import annotations

import contextlib
import os
import socket
import struct
from collections.abc import Iterator

from following import Address

# That a socket of TCP listens, in /proc/net/tcp.
LISTENS = "0A"
# The host of a socket that is open at all addresses of a machine.
ALL = "0.0.0.0"


def open_sockets(kind: str) -> Iterator[tuple[str, Address, str]]:
    """The sockets of this machine, of kind udp or tcp: the inode, the own address, and the state of each."""
    with open(f"/proc/net/{kind}", encoding="ascii") as file:
        for line in file.readlines()[1:]:
            words = line.split()
            host, _, port = words[1].partition(":")
            yield words[9], (socket.inet_ntoa(struct.pack("=I", int(host, 16))), int(port, 16)), words[3]


def held_sockets() -> Iterator[set[str]]:
    """Of each program here that lets itself be looked into, the inodes of its sockets."""
    for name in filter(str.isdigit, os.listdir("/proc")):
        with contextlib.suppress(OSError):
            links = [os.readlink(entry.path) for entry in os.scandir(f"/proc/{name}/fd")]
            yield {link[len("socket:["):-1] for link in links if link.startswith("socket:[")}


def page_beside(phones: Address) -> Address | None:
    """Where the page of the gateway is whose telephones are at this address, if that can be seen from here."""
    try:
        telephones = {inode for inode, own, _ in open_sockets("udp") if own in (phones, (ALL, phones[1]))}
        pages = {inode: own for inode, own, state in open_sockets("tcp") if state == LISTENS}
    except OSError:
        return None
    for held in held_sockets():
        if held & telephones:
            for inode in held & pages.keys():
                host, port = pages[inode]
                return (phones[0] if host == ALL else host, port)
    return None
