#!/usr/bin/env python3
"""Headers by scapy.

headers.py make COUNT SEED  writes so many lines: an IPv4 header of 20 bytes with random fields, and the same with its
                            time to live lowered by one, both with the checksum that scapy works out. One line in eight
                            has a checksum of 0000, FFFF (the other zero, in the first header alone), FEFF, FE00 to FEFF
                            or FF00 in the first header.
headers.py pcap FILE        writes the headers of standard input, a line each, as a capture.
"""
import random
import sys

from scapy.all import IP, RawPcapWriter


def summed(packet):
    """The header's bytes, the checksum worked out by scapy."""
    packet = packet.copy()
    packet.chksum = None
    return bytes(packet)[:20]


def checksum(header):
    return header[10] << 8 | header[11]


def made(draw):
    address = lambda: ".".join(str(draw.randrange(256)) for _ in range(4))
    return IP(
        tos=draw.randrange(256), len=draw.randrange(20, 1501), id=draw.randrange(65536), flags=draw.randrange(8),
        frag=draw.randrange(8192), ttl=draw.choice([2, 3, 64, 128, 255, draw.randrange(2, 256)]),
        proto=draw.randrange(256), src=address(), dst=address(),
    )


def aimed(packet, target):
    """The packet with an identification that makes its checksum the target, if there is one."""
    packet.id = 0
    packet.id = (checksum(summed(packet)) - target) % 65535
    return packet


def make(count, seed):
    draw = random.Random(seed)
    for k in range(count):
        packet = made(draw)
        if k % 8 == 0:
            target = draw.choice([0, 0, 0xFEFF, 0xFF00, 0xFE00 + draw.randrange(256)])
            packet = aimed(packet, target)
            assert checksum(summed(packet)) == target
        header = bytearray(summed(packet))
        if checksum(header) == 0 and draw.randrange(2):
            header[10:12] = b"\xff\xff"
        packet.ttl -= 1
        print(header.hex(), summed(packet).hex())


def pcap(name):
    ipv4 = 228
    out = RawPcapWriter(name, linktype=ipv4)
    out.write_header(None)
    for line in sys.stdin:
        out.write_packet(bytes.fromhex(line))
    out.close()


if sys.argv[1] == "make":
    make(int(sys.argv[2]), int(sys.argv[3]))
else:
    pcap(sys.argv[2])
