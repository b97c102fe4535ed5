"""A table of the library, lent its arrays from here; and the fields of an UPDATE message (RFC 4271, 4.3)."""

import ctypes
import ipaddress
import os
import struct


def library(folder):
    lib = ctypes.CDLL(os.path.join(folder, "libghatumri.so"))
    for call in (lib.gh_make, lib.gh_update, lib.gh_write_field, lib.gh_report):
        call.restype = ctypes.c_uint64
    return lib


class Table:
    """The standard geometry, with this room and so many chunks in the two pools."""

    def __init__(self, lib, room=64, second=4, third=4):
        array = lambda of, n: (of * max(n, 1))()
        u8, u16, u32 = ctypes.c_uint8, ctypes.c_uint16, ctypes.c_uint32
        self.lib, self.count = lib, 0
        self.list = array(u8, 8 * room)
        self.lent = [
            (self.list, 8 * room), (array(u16, 65536), 65536), (array(u16, 256 * second), 256 * second),
            (array(u16, 256 * third), 256 * third), (array(u32, second), second), (array(u32, third), third),
            (array(u16, 65536), 65536), (array(u16, 256 * second), 256 * second),
        ]
        assert lib.gh_make(u32(16), u32(24), *self.arrays()) == 0

    def arrays(self):
        return [x for array, n in self.lent for x in (array, ctypes.c_size_t(n))]

    def update(self, withdrawn, reach, hop=44):
        u32, size = ctypes.c_uint32, ctypes.c_size_t
        a = self.lib.gh_update(u32(16), u32(24), u32(self.count), *self.arrays(), withdrawn, size(len(withdrawn)),
                               reach, size(len(reach)), u32(hop))
        if a & 0xFF == 0 or a >> 8 & 1:
            self.count = a >> 16 & 0xFFFF
        return a

    def records(self):
        return bytes(self.list)[:8 * self.count]

    def prefixes(self):
        """The prefixes of the list, as text."""
        rows = struct.iter_unpack(">IBBH", self.records())
        return [f"{ipaddress.IPv4Address(addr)}/{length}" for addr, length, _, _ in rows]

    def field(self):
        """The list as a reachability field."""
        records, out = self.records(), ctypes.create_string_buffer(20480)
        a = self.lib.gh_write_field(records, ctypes.c_size_t(len(records)), out, ctypes.c_size_t(len(out)))
        assert a & 0xFFFFFFFF == 0, hex(a)
        return out.raw[:a >> 32]


def messages(data):
    """The messages of a stream, as type and body."""
    while data:
        assert data[:16] == b"\xff" * 16
        length, kind = struct.unpack(">HB", data[16:19])
        yield kind, data[19:length]
        data = data[length:]


def fields(body):
    """The withdrawn and the reachability field of an UPDATE's body."""
    gone = 2 + int.from_bytes(body[:2], "big")
    attributes = gone + 2 + int.from_bytes(body[gone:gone + 2], "big")
    return body[2:gone], body[attributes:]
