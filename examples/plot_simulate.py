#!/usr/bin/env python3
"""Draws a run of the simulated world: how far the clocks were apart, and the bound and the error of each correction.

Usage: examples/plot_simulate.py SEED N [CAPTURE] >FILE.svg

It has a plain model of the world of its own, written from docs/PROTOCOL.md alone. With a capture, as `/simulate:SEED:N`
writes it, it first sees that the capture has exactly the events of the model. It needs no library beside Python's own.
"""
import hashlib
import struct
import sys

TURN = 2**32 * 10**7
EPOCH = 9_435_484_800
LAST = 4 * 10**18
RID = 1103
KEY = bytes(range(16))
BEGIN = 132_223_104_000_000_000
PARTNER = (0x0A000001, 123)
LONGEST = 172_800 * 10**7


def stamp(ticks):
    seconds, rest = divmod(ticks, 10**7)
    return (seconds - EPOCH) % 2**32, -((-rest * 2**32) // 10**7)


def near(field, reading):
    """The moment that a timestamp means near a reading."""
    ticks = (field[0] + EPOCH) * 10**7 + (field[1] * 10**7) // 2**32
    low = reading - TURN // 2
    return low + (ticks - low) % TURN


def at(data, place):
    return struct.unpack(">II", data[place:place + 8])


def answer(data, now):
    """The controller's reply, or nothing. No message here is an extended one."""
    version, mode = (data[0] >> 3) & 7, data[0] & 7
    key_id = struct.unpack("<I", data[48:52])[0]
    if not 1 <= version <= 4 or mode not in (1, 3) or key_id != RID:
        return None
    header = bytes([version << 3 | (4 if mode == 3 else 2), 1, data[2], 0xE9]) + bytes(8) + b"LOCL"
    moment = struct.pack(">II", *stamp(now))
    header += moment + data[40:48] + moment + moment
    return header + data[48:52] + hashlib.md5(KEY + header).digest()


class World:
    def __init__(self):
        self.member, self.controller, self.uneven = BEGIN, BEGIN + 30_000_000, 0
        self.packets, self.stamps, self.events = [], set(), []
        self.corrections, self.path = [], []
        self.life(0)

    def life(self, mark):
        self.events.append(b"\x01W32T" + struct.pack(">QI", self.member, mark))
        self.mark, self.sent, self.open, self.misses, self.poll, self.base = mark, 0, [], 0, 0, None

    def tick(self, word):
        self.events.append(b"\x02" + struct.pack(">QI", self.member, word))
        if self.sent and self.base <= self.member < self.base + 2**self.poll * 10**7:
            return
        if self.misses == 8:
            self.open, self.misses, self.poll = [], 0, 0
        self.sent, self.misses, self.base = self.sent + 1, self.misses + 1, self.member
        sign = (self.mark + self.sent, word)
        self.open.append((sign, self.member, self.uneven))
        self.stamps.add(sign)
        request = bytes([0xDB, 0, self.poll, 0xE9]) + bytes(36) + struct.pack(">II", *sign) + struct.pack("<I", RID) + bytes(16)
        self.packets.append((True, request))

    def arrive(self, data):
        self.events.append(b"\x04" + struct.pack(">QIHH", self.member, *PARTNER, len(data)) + data)
        now = self.member
        if len(data) != 68 or data[0] & 7 != 4 or not 1 <= data[1] <= 15 or data[0] >> 6 == 3:
            return
        requests = [r for r in self.open if r[0] == at(data, 24) and r[1] <= now <= r[1] + 10**8]
        key_id = struct.unpack("<I", data[48:52])[0] % 2**31
        if not requests or key_id != RID or data[52:] != hashlib.md5(KEY + data[:48]).digest():
            return
        _, left, uneven = requests[0]
        received, replied = near(at(data, 32), now), near(at(data, 40), now)
        delay = now - left - (replied - received)
        if replied < received or delay < 0:
            return
        twice = received - left + replied - now
        offset = abs(twice) // 2 * (1 if twice >= 0 else -1)
        if abs(offset) > LONGEST:
            return
        bound = (delay + 2 * (self.uneven - uneven) + 1) / 2
        self.corrections.append((self.member, bound, abs(offset - (self.controller - self.member))))
        self.open, self.misses = [], 0
        self.base = now + (offset if abs(offset) > 300 * 10**7 else 0)
        self.poll = min(self.poll + 1, 4) if abs(offset) <= 10**6 else 0
        self.member = min(max(now + offset, 0), LAST)

    def ask(self, data):
        reply = answer(data, self.controller)
        if reply:
            self.packets.append((False, reply))

    def passes(self, d, e, f):
        member, controller = self.member + d + e, self.controller + d + f
        if abs(e) <= d and abs(f) <= d and member <= LAST and controller <= LAST:
            self.member, self.controller = member, controller
            self.uneven += abs(e) + abs(f)

    def deliver(self, back):
        if back < len(self.packets):
            to_controller, data = self.packets[-1 - back]
            self.ask(data) if to_controller else self.arrive(data)

    def craft(self, data):
        signed = data[52:] == hashlib.md5(KEY + data[:48]).digest()
        if not signed or any(data == sent for _, sent in self.packets):
            self.arrive(data)

    def stranger(self, data):
        guesses = struct.unpack("<I", data[48:52])[0] % 2**31 == RID and at(data, 40) not in self.stamps
        if not guesses:
            self.ask(data)

    def restart(self):
        self.life(self.mark + 64 * -(-self.sent // 64))


def run(seed, count):
    """The world after so many operations of a seed."""
    def draw():
        nonlocal seed
        seed = (seed * 1664525 + 1013904223) % 2**32
        return seed // 65536

    world = World()
    for _ in range(count):
        kind = draw() % 16
        if kind <= 5:
            d, e, f = 10_000 * (1 + draw()), draw() % 2001 - 1000, draw() % 2001 - 1000
            world.passes(d, e, f)
        elif kind <= 8:
            high = draw()
            world.tick(high * 65536 + draw())
        elif kind <= 13:
            world.deliver(draw() % 8)
        elif kind == 14:
            world.craft(bytes(draw() % 256 for _ in range(68)))
        elif draw() % 8 == 0:
            world.restart()
        else:
            world.stranger(bytes([0x1B] + [draw() % 256 for _ in range(67)]))
        world.path.append((world.member, world.controller - world.member))
    return world


# ---- The picture. Times are in hours along, and seconds up in powers of ten.

WIDTH, HEIGHT, LEFT, RIGHT, TOP, BOTTOM = 960, 460, 70, 20, 50, 50
LEAST, MOST = -7, 2


def power(ticks):
    """The place of an amount of time between the least and the greatest power of ten, from 0 to 1."""
    value = max(abs(ticks), 1) / 1e7
    exponent = 0
    while value < 1:
        value, exponent = value * 10, exponent - 1
    while value >= 10:
        value, exponent = value / 10, exponent + 1
    # A straight line between two powers of ten would bend the scale: so the logarithm by halves.
    part, step = 0.0, 0.5
    for _ in range(20):
        value *= value
        if value >= 10:
            value, part = value / 10, part + step
        step /= 2
    return (exponent + part - LEAST) / (MOST - LEAST)


def picture(seed, count, world):
    whole = max(world.path[-1][0] - BEGIN, 1)
    across = lambda reading: LEFT + (reading - BEGIN) * (WIDTH - LEFT - RIGHT) / whole
    up = lambda ticks: HEIGHT - BOTTOM - power(ticks) * (HEIGHT - TOP - BOTTOM)
    lines = [
        f'<svg xmlns="http://www.w3.org/2000/svg" viewBox="0 0 {WIDTH} {HEIGHT}" font-family="sans-serif" font-size="13">',
        f'<rect width="{WIDTH}" height="{HEIGHT}" fill="white"/>',
        f'<text x="{LEFT}" y="20" font-size="15">The simulated world, seed {seed}, {count} operations: '
        f"{len(world.corrections)} corrections</text>",
    ]
    for exponent in range(LEAST, MOST + 1):
        y = up(10.0**(exponent + 7))
        lines.append(f'<line x1="{LEFT}" y1="{y:.1f}" x2="{WIDTH - RIGHT}" y2="{y:.1f}" stroke="#ddd"/>')
        lines.append(f'<text x="{LEFT - 8}" y="{y + 4:.1f}" text-anchor="end">1e{exponent} s</text>')
    hours = whole // (3600 * 10**7)
    for hour in range(0, hours + 1, max(hours // 8, 1)):
        x = across(BEGIN + hour * 3600 * 10**7)
        lines.append(f'<text x="{x:.1f}" y="{HEIGHT - BOTTOM + 20}" text-anchor="middle">{hour} h</text>')
    path = " ".join(f"{across(reading):.1f},{up(apart):.1f}" for reading, apart in world.path)
    lines.append(f'<polyline points="{path}" fill="none" stroke="#1f5fa8" stroke-width="1"/>')
    for reading, bound, error in world.corrections:
        x = across(reading)
        lines.append(f'<line x1="{x:.1f}" y1="{up(bound):.1f}" x2="{x:.1f}" y2="{up(error):.1f}" stroke="#c33" stroke-dasharray="2 3"/>')
        lines.append(f'<rect x="{x - 3:.1f}" y="{up(bound) - 3:.1f}" width="6" height="6" fill="#c33"/>')
        lines.append(f'<circle cx="{x:.1f}" cy="{up(error):.1f}" r="3.5" fill="#2a7"/>')
    y = HEIGHT - 10
    for x, mark, text in [
        (LEFT, '<line x1="{0}" y1="{1}" x2="{2}" y2="{1}" stroke="#1f5fa8" stroke-width="2"/>', "how far the clocks are apart"),
        (LEFT + 230, '<rect x="{0}" y="{3}" width="6" height="6" fill="#c33"/>', "the bound of a correction"),
        (LEFT + 430, '<circle cx="{4}" cy="{1}" r="3.5" fill="#2a7"/>', "its error"),
    ]:
        lines.append(mark.format(x, y - 4, x + 14, y - 7, x + 3))
        lines.append(f'<text x="{x + 20}" y="{y}">{text}</text>')
    return "\n".join(lines + ["</svg>", ""])


def main():
    if len(sys.argv) not in (3, 4):
        sys.exit(__doc__)
    seed, count = int(sys.argv[1]), int(sys.argv[2])
    world = run(seed, count)
    if len(sys.argv) == 4:
        with open(sys.argv[3], "rb") as file:
            if file.read() != b"".join(world.events):
                sys.exit("the capture has other events than this world")
    sys.stdout.write(picture(seed, count, world))


if __name__ == "__main__":
    main()
