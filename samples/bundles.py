#!/usr/bin/env python3
"""Writes the bundles that the runs of "list" are given: that of the crate list, document 01's case 3, whose run is part of rt ci,
those of tests/list, which tests/run.sh runs, and harvest.bundle, which is one of them.

usage: samples/bundles.py    (from anywhere; it writes into the repository that it stands in)

What each run must print stands beside it, in crates/list/stdout or tests/list/NAME.out, written from documents 01 and 02 by hand; that
of many_lines is written here, as it is the same two lines 3,120 times. Frames are of version 2 where version 1 is not asked for.
"""
import os
import struct

ROOT = os.path.join(os.path.dirname(os.path.abspath(__file__)), "..")


def frame(source, deadline, entries=None, payload=b"", mark=b"DRY", version=2):
    """A frame; entries is a dictionary from panels to deadlines. Nothing is checked."""
    entries = entries or {}
    mask = sum(1 << panel for panel in entries)
    due = ">I" if version == 1 else ">Q"
    head = mark + struct.pack(">HB", version, source) + struct.pack(due, deadline) + struct.pack(">Q", mask)
    dues = b"".join(struct.pack(due, entries[panel]) for panel in sorted(entries))
    return head + dues + bytes([len(payload)]) + payload


def bundle(*frames):
    """A run of frames, each behind its length in 16 bits."""
    return b"".join(struct.pack(">H", len(f)) + f for f in frames)


def with_version(version, f):
    """The same bytes with another version in them."""
    return f[:3] + struct.pack(">H", version) + f[5:]


# Deadlines of messages with lifetime 0: one of panel 3 at time 100, one sent by whoever has that, and one of panel 3 at time 200.
DUE, NEXT_DUE, LATER_DUE = 7300, 7301, 7400

# Panel 3 holds a batch; panel 5, which has read that, reports the moisture; panel 3, which has read
# that, lifts the hold, and names the moisture alone, as that names the batch (document 02, W-204).
# They come in the wrong order, with a damaged copy and one more copy.
HOLD = frame(3, DUE, payload=b"hold batch 6")
MOISTURE = frame(5, NEXT_DUE, {3: DUE}, b"moisture 19")
LIFTED = frame(3, LATER_DUE, {5: NEXT_DUE}, b"hold lifted")
HARVEST = bundle(LIFTED, MOISTURE, b"DRX" + HOLD[3:], HOLD, MOISTURE)

# A chain of four panels, each of which has read all before it. The first three are old ones, which send version 1; the frame of panel 3
# names panels 1 and 2. Panel 4 is a new one, whose frame names the last alone. They come in the wrong order.
OLD_AND_NEW = bundle(
    frame(4, 400, {3: 300}),
    frame(3, 300, {1: 100, 2: 200}, version=1),
    frame(2, 200, {1: 100}, version=1),
    frame(1, 100, version=1),
)

# Bench cases 1 and 2 of document 01, with the deadlines of document 02, W-203.
FIRST = frame(3, DUE, payload=b"OK")
SECOND = frame(3, NEXT_DUE, {3: DUE})

# The farthest deadline that panel 0 takes at time 0, the last of version 1, and the last that there is.
FARTHEST_DUE, LAST_DUE_1, LAST_DUE = 1209600, 2**32 - 1, 2**64 - 1

# 32 messages that wait for one of panel 1, which comes last.
WAITING = [frame(2, 100 + i, {1: 50}) for i in range(32)]

REFUSALS = bundle(
    b"",  # 1: fewer than 19 bytes
    frame(1, 10)[:18],  # 1: fewer than 19 bytes
    frame(1, 10, {2: 5})[:30],  # 1: too few bytes for the entry and the length byte
    frame(1, 10, payload=b"OK")[:24],  # 1: too few bytes for the payload
    frame(1, 10, mark=b"DRX"),  # 2
    frame(1, 10, version=3),  # 3
    frame(64, 10),  # 4
    frame(1, 0),  # 5
    frame(1, 10, {2: 0}),  # 6: an entry of 0
    frame(1, 10, {2: 5, 3: 10}),  # 6: an entry equal to the deadline
    frame(1, LAST_DUE, {2: LAST_DUE}),  # 6: before 32
    frame(1, 10, payload=bytes(33)),  # 7
    frame(1, 10) + b"\0",  # 8
    frame(0, 10),  # 20
    frame(0, LAST_DUE),  # 20: before 32
    frame(1, 10),  # taken
    frame(1, 10),  # 22: its deadline is the mark of its source
    frame(1, 9),  # 22: its deadline is below that mark
    frame(3, LAST_DUE),  # 32
    frame(3, FARTHEST_DUE + 1),  # 32
    frame(3, FARTHEST_DUE),  # taken
    *WAITING,  # taken: they wait for 50 of panel 1
    WAITING[31],  # 22: it is waiting already
    frame(2, 200, {1: 50}),  # 23
    frame(2, FARTHEST_DUE, {1: 50}),  # 23
    frame(2, FARTHEST_DUE + 1, {1: 50}),  # 32: before 23
)

# The longest frames: an entry of each panel, and 32 bytes of payload. They wait, as panel 0 never sends.
LONGEST_1, LONGEST = (frame(9, 500, {panel: 100 for panel in range(64)}, bytes(range(32)), version=version) for version in (1, 2))

BOTH_VERSIONS = bundle(
    # a message in both versions is one message, while it waits and when it is in the log
    frame(5, NEXT_DUE, {3: DUE}, b"moisture 19", version=1),  # taken: it waits
    MOISTURE,  # 22: it is waiting already
    HOLD,  # taken, and both are handed
    frame(3, DUE, payload=b"hold batch 6", version=1),  # 22: its deadline is the mark of its source
    MOISTURE,  # 22
    frame(5, NEXT_DUE, {3: DUE}, b"moisture 19", version=1),  # 22
    # the shortest frames, and one byte less: 1, in version 2 before the source, and behind the mark
    frame(1, 10, version=1)[:18],  # 1
    frame(1, 10, version=1),  # taken
    frame(2, 10)[:18],  # 1
    frame(2, 10)[:19],  # 1
    frame(2, 10)[:22],  # 1
    frame(2, 10),  # taken
    frame(64, 0)[:19],  # 1
    frame(64, 0)[:22],  # 1
    frame(64, 0),  # 4
    frame(64, 0, version=1),  # 4
    frame(64, 0, mark=b"DRX")[:22],  # 2
    # other versions, also with fewer bytes than version 2 has at least
    frame(1, 20, version=3),  # 3
    frame(64, 0, version=3)[:19],  # 3
    frame(64, 0, version=3)[:18],  # 1
    frame(1, 20, version=0),  # 3
    frame(1, 20, version=0x0100),  # 3
    frame(1, 20, version=0x0102),  # 3
    # each read as the other one: too few bytes for the entries, and deadline 0
    with_version(2, frame(1, 20, {2: 10}, version=1)),  # 1
    with_version(1, frame(1, 20, {2: 10})),  # 5
    # deadlines and entries above 32 bits, some of which would be taken by the lower 32 alone
    frame(6, LAST_DUE_1, version=1),  # 32
    frame(6, LAST_DUE_1),  # 32
    frame(6, LAST_DUE_1 + 1),  # 32
    frame(6, LAST_DUE_1 + 1 + 20),  # 32
    frame(6, LAST_DUE_1 + 1 + 20, {1: LAST_DUE_1 + 1 + 10}),  # 32
    frame(6, LAST_DUE),  # 32
    frame(6, LAST_DUE, {1: LAST_DUE - 1}),  # 32
    frame(6, LAST_DUE, {1: LAST_DUE}),  # 6
    frame(6, 20, {1: LAST_DUE_1 + 1 + 10}),  # 6
    frame(6, FARTHEST_DUE + 1, version=1),  # 32
    frame(6, FARTHEST_DUE, version=1),  # taken
    # the longest frames
    LONGEST[:-1],  # 1
    LONGEST + b"\0",  # 8
    LONGEST_1[:-1],  # 1
    LONGEST_1 + b"\0",  # 8
    LONGEST_1,  # taken: it waits
    LONGEST,  # 22
    frame(0, 30, version=1),  # 20
)

# The largest input, 65,535 bytes, of the shortest frames: each is handed at once, and the last is too short to be one.
MANY = range(1, 3121)
MANY_FRAMES = bundle(*(frame(1, deadline, version=1) for deadline in MANY), bytes(13))
MANY_LINES = "".join(f"frame {i} taken\nhand 1 {i} -\n" for i in MANY) + "frame 3121 1\nend\n"

FILES = {
    "crates/list/stdin": bundle(SECOND, FIRST),
    "samples/harvest.bundle": HARVEST,
    "tests/list/harvest.in": HARVEST,
    "tests/list/old_and_new.in": OLD_AND_NEW,
    "tests/list/both_versions.in": BOTH_VERSIONS,
    "tests/list/empty.in": b"",
    "tests/list/one_byte.in": b"\0",
    "tests/list/broken.in": bundle(FIRST, SECOND) + struct.pack(">H", 500) + FIRST,
    "tests/list/full.in": bundle(*WAITING, frame(4, 60), frame(2, 200, {1: 50}), frame(1, 50)),
    "tests/list/refusals.in": REFUSALS,
    "tests/list/payloads.in": bundle(frame(1, 10), frame(2, 20, payload=bytes(range(240, 256)) + bytes(range(16)))),
    "tests/list/largest.in": bundle(bytes(65533)),
    "tests/list/long.in": bundle(bytes(65534)),
    "tests/list/many_lines.in": MANY_FRAMES,
    "tests/list/many_lines.out": MANY_LINES.encode(),
}

for name, data in FILES.items():
    with open(os.path.join(ROOT, name), "wb") as file:
        file.write(data)
