"""Messages made by scapy, and fields of the library taken apart by scapy."""

import ipaddress
import logging
import random
import sys

from table import Table, fields, library, messages

logging.getLogger("scapy").setLevel(logging.ERROR)
try:
    from scapy.contrib.bgp import BGPHeader, BGPNLRI_IPv4, BGPUpdate
    from scapy.packet import raw
except ImportError:
    print("peers: no scapy on this machine, its messages are left out")
    sys.exit(0)

lib = library(sys.argv[1])
draw = random.Random(4271)


def prefixes(n):
    """So many different prefixes, some of them nested."""
    found = set()
    while len(found) < n:
        length = draw.randrange(33)
        address = draw.getrandbits(32) & 0x0FFFFFFF | 0xA0000000
        found.add(str(ipaddress.ip_network((address, length), strict=False)))
    return draw.sample(sorted(found), n)


def update(withdrawn, reach):
    """An UPDATE's two fields, as scapy writes them."""
    body = BGPUpdate(withdrawn_routes=[BGPNLRI_IPv4(prefix=p) for p in withdrawn], path_attr=[],
                     nlri=[BGPNLRI_IPv4(prefix=p) for p in reach])
    (kind, body), = messages(raw(BGPHeader(type=2) / body))
    assert kind == 2
    return fields(body)


def read(field):
    """The prefixes of a field, as scapy reads them."""
    length = len(field).to_bytes(2, "big")
    return [n.prefix for n in BGPUpdate(length + field + b"\0\0").withdrawn_routes]


order = lambda p: (int(ipaddress.ip_network(p).network_address), ipaddress.ip_network(p).prefixlen)
for turn in range(40):
    table, standing = Table(lib, 4096, 512, 512), set()
    for message in range(4):
        withdrawn = draw.sample(sorted(standing), len(standing) // 3) + prefixes(3)
        reach = prefixes(draw.randrange(60))
        said = table.update(*update(withdrawn, reach), 1 + turn)
        standing = standing - set(withdrawn) | set(reach)
        assert said == len(standing) << 16 | len(withdrawn + reach) << 32, hex(said)
        assert table.prefixes() == sorted(standing, key=order)
        assert read(table.field()) == table.prefixes()
print("peers: scapy's messages, 160 of them")
