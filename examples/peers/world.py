#!/usr/bin/env python3
"""The simulated world in plain Python, written from docs/PROTOCOL.md alone, and what it says of the error of corrections.

Usage: examples/peers/world.py attacks            each attack, with its corrections and its least slack
       examples/peers/world.py search [LENGTH]    all scripts of that length over a few operations, with the least slack of each
       examples/peers/world.py compare PROGRAM [SEEDS [OPS]]   the summary of each seed, against that of PROGRAM /simulate

It needs no library beside Python's own. No message here is an extended one.
"""
import hashlib
import itertools
import struct
import subprocess
import sys

RID, KEY = 1103, bytes(range(16))
EPOCH, TURN, LAST, MOST_UNEVEN = 9_435_484_800, 2**32 * 10**7, 4 * 10**18, 10**18
BEGIN, AHEAD = 132_223_104_000_000_000, 30_000_000
NEAR = 68 * 36525 * 864 * 10**7


def timestamp(reading):
    seconds, rest = reading // 10**7, reading % 10**7
    return struct.pack(">II", (seconds - EPOCH) % 2**32, (rest * 2**32 + 10**7 - 1) // 10**7)


def moment(field, near):
    """The one moment that a timestamp can mean, from half a turn before a reading to just below half a turn after it."""
    seconds, fraction = struct.unpack(">II", field)
    base = (seconds + EPOCH) * 10**7 + fraction * 10**7 // 2**32
    turns = (near - TURN // 2 - base + TURN - 1) // TURN
    return base + turns * TURN


def rid_of(message):
    return struct.unpack("<I", message[48:52])[0] & 0x7FFFFFFF


def digest(message):
    return hashlib.md5(KEY + message[:48]).digest()


class World:
    def __init__(self):
        self.m, self.c, self.s = BEGIN, BEGIN + AHEAD, 0
        # Each packet: whether it goes to the controller, its bytes, and the unevenness at which it was sent.
        self.packets = []
        self.skipped = self.sent = self.moved = self.refused = 0
        self.slacks = []
        self.near = True
        self.begin_life(0)

    def begin_life(self, mark):
        self.mark, self.in_life, self.requests, self.poll, self.base = mark, 0, [], 0, None

    # ---- The operations

    def do_pass(self, d, e, f):
        m, c, s = self.m + d + e, self.c + d + f, self.s + abs(e) + abs(f)
        if abs(e) > d or abs(f) > d or m > LAST or c > LAST or s > MOST_UNEVEN:
            return "skipped"
        self.m, self.c, self.s = m, c, s

    def do_again(self, times, d, e, f):
        for _ in range(times):
            self.do_pass(d, e, f)

    def do_poll(self, word):
        if self.mark + self.in_life >= 4_294_967_295:
            return "skipped"
        idle = self.in_life > 0 and self.base <= self.m < self.base + 2**self.poll * 10**7
        if idle:
            return
        if len(self.requests) == 8:
            self.requests, self.poll = [], 0
        self.in_life += 1
        self.sent += 1
        self.base = self.m
        stamp = struct.pack(">II", self.mark + self.in_life, word)
        self.requests.append((stamp, self.m, self.s))
        header = bytes([0xDB, 0, self.poll, 0xE9]) + bytes(36) + stamp
        self.packets.append((True, header + struct.pack("<I", RID) + bytes(16)))

    def do_deliver(self, back):
        if back >= len(self.packets):
            return "skipped"
        to_controller, message = self.packets[-1 - back]
        self.controller(message) if to_controller else self.arrive(message)

    def do_ask(self, message):
        known = any(goes and sent[40:48] == message[40:48] for goes, sent in self.packets)
        if len(message) == 68 and rid_of(message) == RID and not known:
            return "skipped"
        self.controller(message)

    def do_craft(self, message):
        signed = len(message) == 68 and message[52:] == digest(message)
        if signed and all(message != sent for _, sent in self.packets):
            return "skipped"
        self.arrive(message)

    def do_restart(self):
        mark = self.mark + 64 * ((self.in_life + 63) // 64)
        if mark > 4_294_967_231:
            return "skipped"
        self.begin_life(mark)

    def step(self, name, *arguments):
        if getattr(self, "do_" + name)(*arguments) == "skipped":
            self.skipped += 1
        self.near = self.near and abs(self.c - self.m) <= NEAR

    # ---- The controller and the member

    def controller(self, message):
        if len(message) not in (48, 68):
            return
        version, mode = message[0] // 8 % 8, message[0] % 8
        if version not in (1, 2, 3, 4) or mode not in (1, 3):
            return
        now = timestamp(self.c)
        header = bytes([version * 8 + (4 if mode == 3 else 2), 1, message[2], 0xE9]) + bytes(8) + b"LOCL"
        header += now + message[40:48] + now + now
        if len(message) == 48:
            self.packets.append((False, header))
        elif rid_of(message) == RID and message[51] < 128:
            self.packets.append((False, header + message[48:52] + digest(header)))

    def arrive(self, message):
        if self.accepts(message):
            self.moved += 1
        else:
            self.refused += 1

    def accepts(self, message):
        if len(message) != 68 or message[0] % 8 != 4 or message[1] not in range(1, 16) or message[0] // 64 == 3:
            return False
        answered = [r for r in self.requests if r[0] == message[24:32] and r[1] <= self.m <= r[1] + 100_000_000]
        if not answered or rid_of(message) != RID or message[52:] != digest(message):
            return False
        t1, s1 = answered[0][1:]
        t2, t3, t4 = moment(message[32:40], self.m), moment(message[40:48], self.m), self.m
        delay = (t4 - t1) - (t3 - t2)
        if t3 < t2 or delay < 0:
            return False
        twice = (t2 - t1) + (t3 - t4)
        offset = twice // 2 if twice >= 0 else -(-twice // 2)
        if abs(offset) > 172_800 * 10**7:
            return False
        self.slacks.append(delay + 2 * (self.s - s1) + 1 - 2 * abs(offset - (self.c - self.m)))
        self.requests = []
        self.base = t4 + offset if abs(offset) > 300 * 10**7 else t4
        self.poll = min(self.poll + 1, 4) if abs(offset) <= 1_000_000 else 0
        self.m = max(0, min(t4 + offset, LAST))
        return True


# ---- The script of a seed

def script(seed, count):
    def draw():
        nonlocal seed
        seed = (seed * 1664525 + 1013904223) % 2**32
        return seed // 65536

    for _ in range(count):
        first = draw() % 16
        if first < 6:
            d = 10_000 * (1 + draw())
            e = draw() % 2001 - 1000
            yield "pass", d, e, draw() % 2001 - 1000
        elif first < 9:
            high = draw()
            yield "poll", high * 65536 + draw()
        elif first < 14:
            yield "deliver", draw() % 8
        elif first == 14:
            yield "craft", bytes(draw() % 256 for _ in range(68))
        elif draw() % 8 == 0:
            yield ("restart",)
        else:
            yield "ask", bytes([0x1B] + [draw() % 256 for _ in range(67)])


def run(operations):
    world = World()
    for operation in operations:
        world.step(*operation)
    return world


def summary(world, count):
    least = min(world.slacks) if world.slacks else "none"
    return (f"ops={count} skipped={world.skipped}\n"
            f"sent={world.sent} moved={world.moved} refused={world.refused}\nslack={least}\n")


# ---- Attacks

# Time passes evenly for so many ticks.
def even(ticks):
    return "pass", ticks, 0, 0


ASK, ANSWER, CORRECT = ("poll", 7), ("deliver", 0), ("deliver", 0)
MILLI = even(10_000)
ATTACKS = {
    "a reply after 2 ms": [ASK, MILLI, ANSWER, MILLI, CORRECT],
    "a reply held back to the last tick of ten seconds": [ASK, even(1_000_000), ANSWER, even(99_000_000), CORRECT],
    "a reply one tick later": [ASK, even(1_000_000), ANSWER, even(99_000_001), CORRECT],
    "a request held back, and its reply at once": [ASK, even(99_900_000), ANSWER, CORRECT],
    "two replies exchanged": [ASK, MILLI, ANSWER, even(10_000_000), ("poll", 8), MILLI, ANSWER, ("deliver", 2), ("deliver", 0)],
    "an old reply after a slew": [ASK, MILLI, ANSWER, ("deliver", 1), CORRECT, even(20_000_000), ("poll", 8), MILLI, ("deliver", 2)],
    "a reply after a restart": [ASK, MILLI, ANSWER, ("restart",), CORRECT, ("poll", 7), ("deliver", 1)],
    "a step, and a slew after it": [
        ("pass", 4_000_000_000, -2_000_000_000, 2_000_000_000), ASK, MILLI, ANSWER, MILLI, CORRECT,
        even(10_000_000), ("poll", 8), even(30_001), ANSWER, even(9_999), CORRECT],
    "uneven clocks": [ASK, ("pass", 1_000_000, 500, -500), ANSWER, even(1_000_000), CORRECT],
    "clocks as uneven as they can be": [ASK, ("pass", 1_000_000, -1_000_000, 1_000_000), ANSWER, ("pass", 1_000_000, -1_000_000, 1_000_000), CORRECT],
    "the bound is reached": [("pass", 20_000_000, 20_000_000, -20_000_000), ASK, even(1), ANSWER, CORRECT],
    "timestamps begin anew on the way": [
        ("again", 1_183_109, 4_294_967_295, 0, 0), even(2_428_579_845), ASK, even(50_000_000), ANSWER, even(10_000_000), CORRECT],
    "clocks 68 years apart": [("again", 4_996_351, 2_147_483_648, -2_147_483_647, 2_147_483_647), ASK, MILLI, ANSWER, MILLI, CORRECT],
    "clocks a whole turn of timestamps apart": [
        ("again", 10_000_000, 2_147_483_648, -2_147_483_647, 2_147_483_647), ASK, MILLI, ANSWER, MILLI, CORRECT],
}


def attacks():
    for name, operations in ATTACKS.items():
        world = run(operations)
        least = min(world.slacks) if world.slacks else None
        print(f"{name}: moved={world.moved} slack={least}" + ("" if world.near else " (not within 68 years)"))
        if world.near and least is not None and least < 0:
            sys.exit("it is negative")


# ---- All short scripts

FEW = [("poll", 1), even(1), ("pass", 3, 3, -3), ("pass", 3, -2, 3), even(10_000_000), ("deliver", 0), ("deliver", 1), ("deliver", 2), ("restart",)]


def search(length):
    least, scripts, corrected = None, 0, 0
    # The member's clock may be ahead too, and a request is sent first.
    for first in ([("poll", 1)], [("pass", 40_000_000, 0, -40_000_000), ("poll", 1)]):
        for rest in itertools.product(FEW, repeat=length):
            world = run(first + list(rest))
            scripts += 1
            corrected += bool(world.slacks)
            for slack in world.slacks:
                if least is None or slack < least[0]:
                    least = slack, first + list(rest)
    print(f"scripts={scripts} corrected={corrected}")
    if least:
        print(f"least slack={least[0]}: {least[1]}")
        if least[0] < 0:
            sys.exit("it is negative")


def compare(program, seeds, count):
    for number in range(seeds):
        seed = number * 21_474_837 % 2**32
        ours = summary(run(script(seed, count)), count)
        theirs = subprocess.run([program, f"/simulate:{seed}:{count}"], capture_output=True, text=True, check=True).stdout
        if ours != theirs:
            sys.exit(f"seed {seed}:\n{ours}and\n{theirs}")
    print(f"{seeds} seeds of {count} operations: the same")


def main():
    words = sys.argv[1:]
    if words == ["attacks"]:
        attacks()
    elif words[:1] == ["search"] and len(words) <= 2:
        search(int(words[1]) if len(words) > 1 else 5)
    elif words[:1] == ["compare"] and 2 <= len(words) <= 4:
        compare(words[1], *[int(word) for word in (words[2:] + ["200", "2000"][len(words) - 2:])])
    else:
        sys.exit(__doc__)


if __name__ == "__main__":
    main()
