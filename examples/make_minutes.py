#!/usr/bin/env python3
"""Writes a session of some minutes to standard output: both channels, with losses, rows and probes.

    python3 examples/make_minutes.py MINUTES > FILE

The same number gives the same bytes everywhere: random numbers are made here, and no float is rounded. A minute takes
32 MB. The sizes are those of a real set: packets of 480 samples, 100 of them a second on each channel, and a row of
4,096 bins ten times a second.
"""
import struct
import sys

from tape_words import A, B, chunk, datagram, depth, end, header, one_way, play, probe, reset, set_display, setup, sound, tape, transmit_depth

PACKET, TARGET, MAX, BINS = 480, 1920, 9600, 4096
CHUNK = 350
SECOND = 1_000_000_000

state = 1


def below(n):
    """A random number below n."""
    global state
    state = (state * 6364136223846793005 + 1442695040888963407) % (1 << 64)
    return (state >> 32) * n >> 32


def tones(side):
    """Ten seconds of sound in packets: a triangle wave over noise."""
    period = 96 if side == A else 150
    packets = []
    for i in range(1000):
        samples = []
        for k in range(i * PACKET, (i + 1) * PACKET):
            phase = k % period
            wave = 4 * min(phase, period - phase) - period
            samples.append(80 * wave + below(2000) - 1000)
        packets.append(struct.pack(f"<{PACKET}h", *samples))
    return packets


def rows(side):
    """Sixty rows in chunks: noise in steps of an eighth of a decibel, and a carrier that wanders."""
    made = []
    for i in range(60):
        values = [below(80) / 8 - 110 for _ in range(BINS)]
        for k in range(20):
            values[(700 + 1500 * side + 13 * i + k) % BINS] = -40 - k / 8
        made.append([struct.pack(f"<{len(values[k:k + CHUNK])}f", *values[k : k + CHUNK]) for k in range(0, BINS, CHUNK)])
    return made


class Channel:
    def __init__(self, side):
        self.side = side
        self.packets = tones(side)
        self.rows = rows(side)
        self.sequence = 1000 * side
        self.row_sequence = 0
        self.lost = 0
        self.held = None
        # samples that the player's own clock has counted, and not yet asked for
        self.due = 0

    def packet(self):
        """The next packet comes, is lost, comes twice or after its follower."""
        sequence = self.sequence
        self.sequence += 1
        if self.lost == 0 and below(3000) == 0:
            self.lost = 2 + below(30)
        if self.lost > 0:
            self.lost -= 1
            return
        if below(300) == 0:
            return
        if self.held is None and below(200) == 0:
            self.held = sequence
            return
        self.send(sequence)
        if below(500) == 0:
            self.send(sequence)
        if self.held is not None:
            self.send(self.held)
            self.held = None

    def send(self, sequence):
        sound(self.side, sequence, self.packets[sequence % len(self.packets)], version=1 + sequence // 1000 % 2)

    def play(self):
        """A plays as packets come; B's player asks for 512 samples at a time."""
        self.due += PACKET
        most = PACKET if self.side == A else 512
        while self.due >= most:
            play(self.side, most)
            self.due -= most

    def row(self, number):
        parts = list(enumerate(self.rows[number % len(self.rows)]))
        if below(100) == 0:
            parts.reverse()
        for i, values in parts:
            self.row_sequence += 1
            if below(2000) > 0:
                chunk(self.side, self.row_sequence, number % 65536, BINS, i * CHUNK, values)


def flush():
    sys.stdout.buffer.write(tape)
    tape.clear()


def clock(second):
    """Probes, one-way times and depths. The server's clock is 5 ms ahead."""
    now, ahead = second * SECOND, 5_000_000
    there = 2_000_000 + below(3_000_000)
    back = 2_000_000 + below(3_000_000)
    probe(now, now + there + ahead, now + there + ahead + 100_000, now + there + back + 100_000)
    one_way(now + below(8_000_000), now + ahead)
    depth(below(2 * TARGET), second, second // 3, 0, second // 60)
    transmit_depth(below(PACKET))


def odd_datagrams(sequence):
    """What a receiver refuses or passes over: another version, another type, a short one, a packet of another size."""
    datagram(header(3, 1, sequence) + bytes(4))
    datagram(header(1, 9, sequence) + bytes(10))
    datagram(b"RS")
    datagram(header(1, 1, sequence) + bytes(6))


def session(minutes):
    setup((PACKET, TARGET, MAX, BINS, 1024, 412), (-30.0, -100.0, 70.0, -30.0, -100.0, 70.0))
    channels = [Channel(A), Channel(B)]
    for tick in range(6000 * minutes):
        second, part = divmod(tick, 100)
        if part == 0:
            clock(second)
            if second % 30 == 0:
                # adaptive, top, range, zoom, smoothing
                set_display(A, 1, -35.0, 70.0, 1.0, 0.5)
                set_display(B, second // 30 % 2, -35.0, 70.0, 1.0 + second // 60 % 4, 0.25)
            if second % 7 == 3:
                odd_datagrams(channels[A].sequence)
            if second % 900 == 450:
                reset(B)
            flush()
        for c in channels:
            c.packet()
            c.play()
            if part % 10 == 5:
                c.row(tick // 10)
    end()
    flush()


if len(sys.argv) != 2 or not sys.argv[1].isdigit():
    sys.exit("usage: python3 examples/make_minutes.py MINUTES > FILE")
session(int(sys.argv[1]))
