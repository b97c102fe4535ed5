"""BIRD on 127.0.0.1: what it sends is dealt to a table, whose list is compared with BIRD's own; and back."""

import os
import shutil
import signal
import socket
import struct
import subprocess
import sys
import tempfile
import time

from table import Table, fields, library, messages

if not shutil.which("bird") or not shutil.which("birdc"):
    print("peers: no bird on this machine, its live messages are left out")
    sys.exit(0)

lib = library(sys.argv[1])
signal.alarm(60)
FIRST = ["0.0.0.0/0", "10.0.0.0/8", "10.1.0.0/16", "10.1.2.0/24", "10.1.2.128/25", "128.0.0.0/1", "203.0.113.7/32"]
LATER = ["100.64.0.0/10", "172.16.0.0/12", "192.0.2.0/24", "198.51.100.0/22"]
CONFIG = """
log "{work}/log" all;
router id 127.0.0.1;
protocol device {{ }}
protocol static one {{ ipv4; {first} }}
protocol static two {{ ipv4; {later} }}
protocol bgp peer {{
    local 127.0.0.1 port {port} as 64512;
    neighbor 127.0.0.2 as 64513;
    passive yes;
    multihop 1;
    strict bind yes;
    ipv4 {{ import all; export where source = RTS_STATIC; }};
}}
"""


def free_port():
    with socket.socket() as s:
        s.bind(("127.0.0.1", 0))
        return s.getsockname()[1]


class Session:
    """A speaker with just OPEN, KEEPALIVE and UPDATE."""

    def __init__(self, port):
        self.socket = socket.socket()
        self.socket.settimeout(10)
        self.socket.bind(("127.0.0.2", 0))
        self.socket.connect(("127.0.0.1", port))
        self.send(1, struct.pack(">BHH4sB", 4, 64513, 90, bytes([127, 0, 0, 2]), 0))
        assert self.receive()[0] == 1
        self.send(4, b"")
        assert self.receive()[0] == 4

    def send(self, kind, body):
        self.socket.sendall(b"\xff" * 16 + struct.pack(">HB", 19 + len(body), kind) + body)

    def exactly(self, n):
        data = b""
        while len(data) < n:
            more = self.socket.recv(n - len(data))
            assert more, "BIRD closed the session"
            data += more
        return data

    def receive(self):
        head = self.exactly(19)
        body = self.exactly(struct.unpack(">H", head[16:18])[0] - 19)
        (message,) = messages(head + body)
        return message

    def updates(self, enough):
        """The fields of UPDATE messages, until `enough` is true of one."""
        while True:
            kind, body = self.receive()
            assert kind in (2, 4), kind
            if kind == 2:
                yield fields(body)
                if enough(*fields(body)):
                    return


def main(work):
    port = free_port()
    route = lambda prefixes: " ".join(f"route {p} unreachable;" for p in prefixes)
    with open(f"{work}/bird.conf", "w") as f:
        f.write(CONFIG.format(work=work, port=port, first=route(FIRST), later=route(LATER)))
    bird = subprocess.Popen(["bird", "-f", "-c", f"{work}/bird.conf", "-s", f"{work}/ctl"], stdout=subprocess.DEVNULL)
    try:
        compare(work, port)
    finally:
        bird.terminate()
        bird.wait(10)


def asked(work, *words):
    """What birdc prints of a command."""
    run = subprocess.run(["birdc", "-s", f"{work}/ctl", *words], capture_output=True, text=True, timeout=10)
    assert run.returncode == 0, run.stdout + run.stderr
    return run.stdout


def routes(work, protocols):
    """The prefixes that BIRD has of these protocols."""
    lines = [line for p in protocols for line in asked(work, "show", "route", "protocol", p).splitlines()]
    return {line.split()[0] for line in lines if line[:1].isdigit() and "/" in line.split()[0]}


def within(seconds, what):
    """Waits until it is true."""
    end = time.monotonic() + seconds
    while not what():
        assert time.monotonic() < end, "BIRD takes too long"
        time.sleep(0.1)


def compare(work, port):
    within(10, lambda: os.path.exists(f"{work}/ctl"))
    session, table = Session(port), Table(lib)
    for withdrawn, reach in session.updates(lambda w, r: not w and not r):
        assert table.update(withdrawn, reach) & 0xFF == 0
    assert set(table.prefixes()) == routes(work, ["one", "two"]) == set(FIRST + LATER)

    asked(work, "disable", "two")
    for withdrawn, reach in session.updates(lambda w, r: len(table.prefixes()) == len(FIRST)):
        assert table.update(withdrawn, reach) & 0xFF == 0
    assert set(table.prefixes()) == routes(work, ["one"]) == set(FIRST)

    # The list as a field of ours: origin, path and next hop before it.
    attributes = bytes.fromhex("40010100" "40020402" "01fc01" "4003047f000002")
    session.send(2, b"\0\0" + struct.pack(">H", len(attributes)) + attributes + table.field())
    within(10, lambda: routes(work, ["peer"]) == set(FIRST))
    session.send(2, struct.pack(">H", len(table.field())) + table.field() + b"\0\0")
    within(10, lambda: routes(work, ["peer"]) == set())
    print(f"peers: {asked(work, 'show', 'status').splitlines()[0]} live, {len(FIRST + LATER)} routes")


with tempfile.TemporaryDirectory() as work:
    main(work)
