#!/usr/bin/env python3
"""Writes the files of the example lanes: net.bin, in.bin and picks.bin of each folder beside this script. With --check nothing is written: the
stored files must be the ones that would be.

A lane is written here as its processes, each a list of instructions (op, a, b, c), its channels, each (sender, receiver, capacity) with None
for the outside, its input, each (channel, value), and its pick bytes. The listings were worked out from the rules by hand.
"""
import pathlib
import struct
import sys

STOP, SET, COPY, ADD, SUB, MUL, DIV, REM, JUMP, JZERO, JNEG, RECV, SEND, CLOSE = range(14)
RELIEF = 255

LANES = {
    # the example of the order: doubles what comes in
    "doubler": dict(
        processes=[[(RECV, 0, 0, 4), (ADD, 0, 0, 0), (SEND, 0, 1, 0), (JUMP, 0, 0, 0), (STOP, 0, 0, 0)]],
        channels=[(None, 0, 1), (0, None, 1)],
        input=[(0, 5), (0, -3)],
        picks=[0] * 10,
    ),
    # a clock hands each vehicle's frame to the classifier: 100 or 200 for a length below 6 metres or from 6 on, and the frame added
    "classifier": dict(
        processes=[
            # clock: frames from outside to the classifier
            [(RECV, 0, 0, 3), (SEND, 0, 2, 0), (JUMP, 0, 0, 0), (STOP, 0, 0, 0)],
            # classifier: a length, its frame, the class, out
            [
                (RECV, 0, 1, 11),
                (RECV, 1, 2, 11),
                (SET, 2, 0, 6),
                (SUB, 3, 0, 2),
                (JNEG, 3, 0, 7),
                (SET, 4, 0, 200),
                (JUMP, 0, 0, 8),
                (SET, 4, 0, 100),
                (ADD, 4, 4, 1),
                (SEND, 4, 3, 0),
                (JUMP, 0, 0, 0),
                (STOP, 0, 0, 0),
            ],
        ],
        channels=[(None, 0, 1), (None, 1, 2), (0, 1, 1), (1, None, 1)],
        input=[(0, 41), (1, 5), (0, 42), (1, 12), (0, 43), (1, 4)],
        picks=[1, 0, 0, 1, 1, 0, 0, 1, 1, 1] + [1, 1, 1, 1, 0, 1] * 8,
    ),
    # loop and barrier each send twice before they receive: with capacities of 1 both wait at full channels until a relief
    "barrier": dict(
        processes=[
            # loop: a passage from outside, two messages to the barrier, two back
            [
                (RECV, 0, 0, 6),
                (SEND, 0, 1, 0),
                (SEND, 0, 1, 0),
                (RECV, 1, 2, 6),
                (RECV, 1, 2, 6),
                (JUMP, 0, 0, 0),
                (STOP, 0, 0, 0),
            ],
            # barrier: two messages to the loop, two back, their sum out
            [
                (SET, 0, 0, 1),
                (SEND, 0, 2, 0),
                (SEND, 0, 2, 0),
                (RECV, 1, 1, 8),
                (RECV, 2, 1, 8),
                (ADD, 3, 1, 2),
                (SEND, 3, 3, 0),
                (JUMP, 0, 0, 0),
                (STOP, 0, 0, 0),
            ],
        ],
        channels=[(None, 0, 2), (0, 1, 1), (1, 0, 1), (1, None, 1)],
        input=[(0, 20), (0, 30)],
        picks=([0, 1] * 4 + [RELIEF]) * 6,
    ),
    # a price for each axle: the second vehicle has none, and the division faults
    "fault": dict(
        processes=[
            # price: an amount, a number of axles, the quotient on
            [(RECV, 0, 0, 5), (RECV, 1, 1, 5), (DIV, 2, 0, 1), (SEND, 2, 2, 0), (JUMP, 0, 0, 0), (STOP, 0, 0, 0)],
            # printer: what comes goes out
            [(RECV, 0, 2, 3), (SEND, 0, 3, 0), (JUMP, 0, 0, 0), (STOP, 0, 0, 0)],
        ],
        channels=[(None, 0, 1), (None, 0, 3), (0, 1, 1), (1, None, 1)],
        input=[(0, 100), (1, 4), (0, 90), (1, 0), (0, 70), (1, 7)],
        picks=[0, 1] * 10,
    ),
    # corrections in cents, each split into shares: what a share gets, rounded down, and what is then left over, which is not below zero
    "correction": dict(
        processes=[
            # clearing: an amount, a number of shares, the quotient out, the remainder out
            [
                (RECV, 0, 0, 7),
                (RECV, 1, 1, 7),
                (DIV, 2, 0, 1),
                (REM, 3, 0, 1),
                (SEND, 2, 2, 0),
                (SEND, 3, 3, 0),
                (JUMP, 0, 0, 0),
                (STOP, 0, 0, 0),
            ],
        ],
        channels=[(None, 0, 1), (None, 0, 1), (0, None, 1), (0, None, 1)],
        input=[(0, -7), (1, 2), (0, -700), (1, 3), (0, -9), (1, 3)],
        picks=[0] * 24,
    ),
}


def check(data):
    rest = 0xFFFF
    for byte in data:
        rest ^= byte << 8
        for _ in range(8):
            rest = ((rest << 1) ^ (0x1021 if rest & 0x8000 else 0)) & 0xFFFF
    return rest


def block(data):
    return data + struct.pack(">H", check(data))


def lane_file(processes, channels):
    code = [instruction for process in processes for instruction in process]
    blocks = -(-len(code) // 127)
    head = bytes([0x4C, 0x4E, 1, len(processes), len(channels), blocks, 0, 0])
    slots, first = b"", 0
    for process in processes:
        slots += struct.pack(">HH", first, len(process))
        first += len(process)
    records = b"".join(
        struct.pack(">BBH", *(255 if end is None else end for end in ends), capacity) for *ends, capacity in channels
    )
    file = block((head + slots.ljust(64, b"\0") + records).ljust(510, b"\0"))
    for k in range(blocks):
        part = b"".join(bytes(i) for i in code[127 * k : 127 * k + 127])
        file += block(part.ljust(508, b"\0") + struct.pack(">H", k + 1))
    return file


def files():
    """Each file and what stands in it."""
    for name, lane in LANES.items():
        folder = pathlib.Path(__file__).parent / name
        yield folder / "net.bin", lane_file(lane["processes"], lane["channels"])
        yield folder / "in.bin", b"".join(struct.pack(">Bi", *record) for record in lane["input"])
        yield folder / "picks.bin", bytes(lane["picks"])


def write():
    for path, content in files():
        path.parent.mkdir(exist_ok=True)
        path.write_bytes(content)


def check_stored():
    """Says which stored file differs, or that there is one that no lane has."""
    made = dict(files())
    stored = set(pathlib.Path(__file__).parent.glob("*/*.bin"))
    wrong = [path for path, content in made.items() if not path.is_file() or path.read_bytes() != content]
    for path in wrong + sorted(stored - set(made)):
        print(f"{path}: not what lanes.py writes")
    return not wrong and stored <= set(made)


if sys.argv[1:] == ["--check"]:
    sys.exit(0 if check_stored() else 1)
elif sys.argv[1:]:
    sys.exit("lanes.py [--check]")
else:
    write()
