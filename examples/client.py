#!/usr/bin/env python3
"""Asks a server of studies for the table of a plan: client.py SOCKET < plan.json > table.csv"""
import socket
import struct
import sys
from typing import Iterator, Tuple

FAULTS = {
    19: "the plan is longer than 65,536 bytes",
    29: "the server has no room for another study",
    30: "the study's file can't be used, or failed",
    32: "the server ran out of memory",
    33: "the server's counts disagree",
    34: "the server ended its work",
    40: "the request was no message",
}


def asked(server: socket.socket, plan: bytes) -> Iterator[Tuple[bytes, bytes]]:
    """The replies of a server to a plan: each its letter and its bytes, up to the end of the connection."""
    server.sendall(b"R" + struct.pack(">I", len(plan)) + plan + b"Q" + struct.pack(">I", 0))
    replies = server.makefile("rb")
    while len(head := replies.read(5)) == 5:
        yield head[:1], replies.read(struct.unpack(">I", head[1:])[0])


with socket.socket(socket.AF_UNIX) as server:
    try:
        server.connect(sys.argv[1])
    except OSError as why:
        sys.exit(f"no server at {sys.argv[1]}: {why.strerror}")
    for letter, payload in asked(server, sys.stdin.buffer.read()):
        if letter == b"T":
            sys.stdout.buffer.write(payload)
        elif letter == b"Z":
            sys.exit(0)
        elif letter == b"E":
            number = int.from_bytes(payload[:2], "big")
            sys.exit(f"no table: fault {number}: {FAULTS.get(number, 'the plan is refused; `cutlab check` says why')}")
sys.exit("no whole table: the server went away; ask again once it is there")
