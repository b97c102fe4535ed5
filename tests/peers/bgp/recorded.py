"""BIRD's recorded messages: the answers that documents 01 and 02 give. Needs are 4 and 2 at the standard geometry."""

import os
import sys

from table import Table, fields, library, messages

here = os.path.dirname(os.path.abspath(__file__))
lib = library(sys.argv[1])
with open(os.path.join(here, "bird-2.0.12-updates.bin"), "rb") as f:
    updates = [fields(body) for kind, body in messages(f.read()) if kind == 2]
assert len(updates) == 4

# Room and chunks; then what each message is answered with: 11 routes, the end of the table, 6 withdrawals, 5 withdrawals.
CASES = [
    ((64, 4, 4), (0x0000000B000B0000, 0x00000000000B0000, 0x0000000600050000, 0x0000000500000000)),
    ((64, 3, 4), (0x0000000A000A0107, 0x00000000000A0000, 0x0000000600050000, 0x0000000500000000)),
    ((64, 4, 1), (0x0000000A000A0108, 0x00000000000A0000, 0x0000000600050000, 0x0000000500000000)),
    ((8, 4, 4), (0x0000000800080106, 0x0000000000080000, 0x0000000600030000, 0x0000000500000000)),
]
for shape, answers in CASES:
    table = Table(lib, *shape)
    for (withdrawn, reach), answer in zip(updates, answers):
        said = table.update(withdrawn, reach)
        assert said == answer, (shape, hex(said), hex(answer))
        if answer == answers[2] and shape[0] == 64:
            assert table.prefixes() == ["0.0.0.0/0", "10.0.0.0/8", "10.1.0.0/16", "10.1.2.0/24", "10.1.2.128/25"]
            assert table.field().hex() == "00080a100a01180a0102190a010280"
print("peers: BIRD's recorded messages, 16 answers")
