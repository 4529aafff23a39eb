#!/usr/bin/env python3
"""Writes session.tape beside this file: a short session on both channels, word by word as docs/TAPE.md says.

    python3 examples/make_session.py

The replay of the tape is session.txt; README.md explains its lines.
"""
import pathlib
import struct

import tape_words
from tape_words import A, B, datagram, depth, end, header, one_way, play, probe, reset, set_display, setup, tape, transmit_depth

TONE = (32767, -32767, 32767, -32767)
# a fade: the band was silent, and its silence was received
FADE = (0, 0, 0, 0)


def sound(side, sequence, samples, version=1):
    tape_words.sound(side, sequence, struct.pack("<4h", *samples), version)


def chunk(side, sequence, number, total, first, values):
    tape_words.chunk(side, sequence, number, total, first, struct.pack(f"<{len(values)}f", *values))


# Packets of 4 samples, a queue that is filled to 8, at most 24 buffered, rows of at most 4 bins, a picture of 4 x 2.
setup((4, 8, 24, 4, 4, 2), (-30.0, -100.0, 70.0, -30.0, -100.0, 70.0))

# ---- before the start
play(A, 4)  # line 1: nothing has come yet

# ---- packets that are shuffled and doubled
sound(A, 100, TONE)
sound(A, 101, TONE)  # 8 samples wait: the start
sound(A, 103, TONE)  # overtakes 102
sound(A, 103, TONE)  # doubled: it replaces the one that waits
sound(A, 102, TONE)  # in time all the same
play(A, 8)  # line 2: 100, 101
play(A, 8)  # line 3: 102, 103

# ---- a lost packet, which comes late, and a fade of the band
sound(A, 104, TONE)
sound(A, 106, TONE)  # 105 is missing: a packet of zeros in its place
play(A, 8)  # line 4: 104, zeros of the player
sound(A, 105, TONE)  # too late
sound(A, 107, FADE)
play(A, 8)  # line 5: 106, zeros of the band

# ---- a row in two chunks, the second first; half a row; and a stray datagram
set_display(A, 1, -30.0, 70.0, 1.0, 0.5)
chunk(A, 1, 1, 4, 2, (-40.0, -20.0))
chunk(A, 2, 1, 4, 0, (-80.0, -60.0))  # line 6: row 1 is complete
chunk(A, 3, 2, 4, 0, (-80.0, -60.0))  # the other half of row 2 is lost
datagram(header(3, 1, 108) + struct.pack("<4h", *TONE))  # line 7: there is no version 3

# ---- the queue runs out
play(A, 6)  # line 8: 107 was the last packet

# ---- a long gap: the third missing packet in a row, and on to the earliest that waits
sound(A, 120, TONE)  # 108 and 109 are made up
play(A, 4)  # line 9: zeros for 108
play(A, 8)  # line 10: zeros for 109 and 110, and a resync
play(A, 4)  # line 11: 120

# ---- channel B, meanwhile
sound(B, 7, TONE)
sound(B, 8, FADE)
play(B, 3)  # line 12: three samples of 7
sound(B, 9, TONE)  # the queue holds 9 samples now, one above 8
play(B, 4)  # line 13: the player drops up to 16 of the oldest, so all 9
chunk(B, 1, 1, 2, 0, (-90.0, -35.0))  # line 14: a row of 2 bins
reset(B)
sound(B, 50, FADE, version=2)
sound(B, 51, TONE, version=2)
play(B, 8)  # line 15: 50, 51

# ---- the clock: the server's is 5 ms ahead
probe(1_000_000_000, 1_006_000_000, 1_006_100_000, 1_002_100_000)  # a round trip of 2 ms
probe(2_000_000_000, 2_012_000_000, 2_012_000_000, 2_009_000_000)  # one of 9 ms: too slow to move the offset
probe(0, 1 << 63, 1 << 63, 0)  # line 16: no clock is that far off
one_way(3_000_000_000, 3_003_000_000)
depth(8, 4, 1, 0, 1)
transmit_depth(480)
end()

pathlib.Path(__file__).with_name("session.tape").write_bytes(tape)
