#!/usr/bin/env python3
"""What `/replay` has to print, by the rules of docs/PROTOCOL.md and Python's standard library.

replay.py lines CONFIG CAPTURE
    Prints the lines of a capture, and ends with the code that `/replay` ends with.

replay.py compare PROGRAM CONFIG CAPTURE
    Runs the program on the capture, on each prefix of it, with one bit of each byte flipped, joined with itself, and on
    captures of random runs, with settings of every kind; and compares lines, codes and faults. Prints how
    often each line was compared.
"""
import collections
import hashlib
import hmac
import os
import random
import struct
import subprocess
import sys
import tempfile

TICKS = 10_000_000
MOST_READING = 4_000_000_000_000_000_000
SECONDS_TO_1900 = 9_435_484_800
NO_LIMIT = LAST_COUNT = 4_294_967_295
WINDOW = 10 * TICKS
KEPT_POLL = 1_000_000
TURN = 2**32 * TICKS
REASONS = "BadLength BadSource BadMode BadStratum NoRequest BadKeyId BadDigest BadTimes TooBig".split()

Event = collections.namedtuple("Event", "kind now mark word flags sender datagram", defaults=(0,) * 6)
Partner = collections.namedtuple("Partner", "address port")


class BadCapture(Exception):
    """The capture can't be judged from this byte on."""


class Settings:
    def __init__(self, text):
        self.values, self.keys, self.computers = {}, {}, []
        for line in text.splitlines():
            words = line.split(" ")
            if line == "" or line.startswith("#"):
                continue
            if words[0] == "account":
                self.keys[int(words[1])] = [bytes.fromhex(key) for key in words[2:]]
            elif words[0] == "computer":
                self.computers.append(words[1:])
            else:
                name, value = line.split("=")
                self.values[name] = value
        is_member = self.values["Role"] == "Member"
        self.short = self.values.get("Auth", "Short") == "Short"
        self.rid = int(self.values["Rid"])
        self.most_ahead = self.number("MaxPosPhaseCorrection", NO_LIMIT if is_member else 172800)
        self.most_behind = self.number("MaxNegPhaseCorrection", NO_LIMIT if is_member else 172800)
        self.most_slewed = self.number("MaxAllowedPhaseOffset", 300)
        self.least_poll = self.number("MinPollInterval", 10 if is_member else 6)
        self.most_poll = self.number("MaxPollInterval", 15 if is_member else 10)
        self.partners = self.ranked()

    def number(self, name, default):
        return int(self.values.get(name, default))

    def query_of(self, flags):
        """The lowest query that an entry matches, or None."""
        role, parent, reliable, emulator = self.values["Role"], "P" in flags, "R" in flags, "E" in flags
        if role == "Member":
            tests = [not parent]
        else:
            tests = [parent, not parent and reliable, not parent and emulator and role == "Controller"]
        first = 0 if "S" in flags else len(tests)
        return next((first + n for n, test in enumerate(tests) if test), None)

    def ranked(self):
        found = []
        for line, (name, place, flags) in enumerate(self.computers):
            query = self.query_of(flags)
            if query is not None and name != self.values["Name"]:
                score = sum(value for flag, value in zip("SRPE", (8, 4, 2, 1)) if flag in flags)
                address, port = place.split(":")
                found.append((-score, query, line, Partner(bytes(map(int, address.split("."))), int(port))))
        return [partner for _, _, _, partner in sorted(found)]


def stamp_of(ticks):
    seconds, rest = divmod(ticks, TICKS)
    return struct.pack(">II", (seconds - SECONDS_TO_1900) % 2**32, -(-rest * 2**32 // TICKS))


def ticks_of(stamp, near):
    seconds, fraction = struct.unpack(">II", stamp)
    ticks = (seconds + SECONDS_TO_1900) * TICKS + fraction * TICKS // 2**32
    least = near - TURN // 2
    return (ticks - least) % TURN + least


def digest_of(key, rid_bytes, header, short):
    if short:
        return hashlib.md5(key + header).digest()
    fixed = b"\0\0\0\1sntp-ms\0" + rid_bytes + b"\0\0\2\0"
    return hmac.new(hmac.new(key, fixed, hashlib.sha512).digest(), header, hashlib.sha512).digest()


class Member:
    """A member over all its lives. Each event gives its line, or None."""

    def __init__(self, settings):
        self.settings = settings
        self.alive = False
        self.most_sent = 0

    def admits(self, event):
        if event.kind == 1:
            return event.mark >= self.most_sent
        return self.alive and (event.kind == 4 or self.count < LAST_COUNT)

    def step(self, event):
        if event.kind == 1:
            self.alive, self.requests, self.partner, self.base = True, [], 0, None
            self.poll, self.count = self.settings.least_poll, event.mark
            return "life mark=%d" % event.mark
        if event.kind == 4:
            return self.arrive(event)
        if event.kind == 3 and event.flags & 4:
            self.requests, self.partner, self.poll = [], 0, self.settings.least_poll
        is_due = self.base is None or event.now < self.base or event.now >= self.base + 2**self.poll * TICKS
        return self.send(event) if event.kind == 3 or is_due else None

    def send(self, event):
        if len(self.requests) == 8:
            self.requests, self.poll = [], self.settings.least_poll
            self.partner = (self.partner + 1) % len(self.settings.partners)
        self.count += 1
        self.most_sent = self.count
        self.base = event.now
        self.requests.append((event.now, struct.pack(">II", self.count, event.word)))
        partner = self.settings.partners[self.partner]
        return "send n=%d to=%s:%d" % (self.count, ".".join(map(str, partner.address)), partner.port)

    def arrive(self, event):
        reason, request, offset = self.judge(event)
        if reason:
            return "refused reason=" + reason
        is_step = abs(offset) > self.settings.most_slewed * TICKS
        self.requests = []
        self.base = event.now + (offset if is_step else 0)
        if abs(offset) <= KEPT_POLL:
            self.poll = min(self.poll + 1, self.settings.most_poll)
        else:
            self.poll = self.settings.least_poll
        count = struct.unpack(">I", request[1][:4])[0]
        return "moved n=%d offset=%d by=%s" % (count, offset, "step" if is_step else "slew")

    def judge(self, event):
        """The reason of refusal, or the request that is answered and the offset."""
        settings, datagram, now = self.settings, event.datagram, event.now
        if len(datagram) != (68 if settings.short else 120):
            return "BadLength", None, 0
        if event.sender != settings.partners[self.partner]:
            return "BadSource", None, 0
        if datagram[0] & 7 != 4:
            return "BadMode", None, 0
        if not 1 <= datagram[1] <= 15 or datagram[0] >> 6 == 3:
            return "BadStratum", None, 0
        open_now = [request for request in self.requests if request[0] <= now <= request[0] + WINDOW]
        request = next((request for request in open_now if request[1] == datagram[24:32]), None)
        if request is None:
            return "NoRequest", None, 0
        named = struct.unpack("<I", datagram[48:52])[0]
        if settings.short and named & ~(1 << 31) != settings.rid:
            return "BadKeyId", None, 0
        if not settings.short and (named != settings.rid or datagram[55] != 1):
            return "BadKeyId", None, 0
        rid_bytes = struct.pack("<I", settings.rid)
        digests = [digest_of(key, rid_bytes, datagram[:48], settings.short) for key in settings.keys[settings.rid]]
        if datagram[52 if settings.short else 56:] not in digests:
            return "BadDigest", None, 0
        t2, t3 = ticks_of(datagram[32:40], now), ticks_of(datagram[40:48], now)
        if t3 < t2 or now - request[0] < t3 - t2:
            return "BadTimes", None, 0
        double = t2 - request[0] + t3 - now
        offset = abs(double) // 2 * (1 if double >= 0 else -1)
        limit = settings.most_ahead if offset > 0 else settings.most_behind
        if limit != NO_LIMIT and abs(offset) > limit * TICKS:
            return "TooBig", None, 0
        return None, request, offset


def event_at(capture, at):
    """The event whose record begins here, and where the next one does."""
    def field(size):
        nonlocal place
        if place + size > len(capture):
            raise BadCapture(at)
        place += size
        return capture[place - size:place]

    place = at
    kind = field(1)[0]
    if not 1 <= kind <= 4 or kind == 1 and field(4) != b"W32T":
        raise BadCapture(at)
    now = struct.unpack(">Q", field(8))[0]
    if now > MOST_READING:
        raise BadCapture(at)
    if kind == 1:
        event = Event(kind, now, mark=struct.unpack(">I", field(4))[0])
    elif kind == 4:
        address, port, size = struct.unpack(">4sHH", field(8))
        if size > 256:
            raise BadCapture(at)
        event = Event(kind, now, sender=Partner(address, port), datagram=field(size))
    else:
        event = Event(kind, now, word=struct.unpack(">I", field(4))[0])
        if kind == 3:
            event = event._replace(flags=struct.unpack(">I", field(4))[0])
    return event, place


def replay(settings, capture):
    """The lines, the line on standard error, and the code."""
    if not settings.partners:
        return "", "w32tm: no partner\n", 11
    member, lines, at, counts = Member(settings), [], 0, collections.Counter()
    try:
        while at < len(capture):
            event, rest = event_at(capture, at)
            if not member.admits(event):
                raise BadCapture(at)
            at = rest
            line = member.step(event)
            if line is not None:
                lines.append(line)
                counts[line.split(" ")[0]] += 1
    except BadCapture as fault:
        return "".join(line + "\n" for line in lines), "w32tm: bad capture at byte %d\n" % fault.args[0], 3
    lines.append("total sent=%d moved=%d refused=%d" % (counts["send"], counts["moved"], counts["refused"]))
    return "".join(line + "\n" for line in lines), "", 0


class Maker:
    """Makes up settings and a run: mostly what a member sees, with something wrong now and then."""

    def __init__(self, seed):
        self.draw = random.Random(seed)
        self.rid = self.draw.choice((0, 1103, 2**31 - 1))
        self.text = self.settings_text()
        self.settings = Settings(self.text)

    def settings_text(self):
        draw = self.draw
        key = draw.randbytes(16).hex() + (" " + draw.randbytes(16).hex() if draw.random() < 0.5 else "")
        lines = ["Name=ME", "Role=" + draw.choice(("Member", "Member", "Controller", "Pdc")), "Rid=%d" % self.rid]
        lines += ["account %d %s" % (self.rid, key), "Auth=" + draw.choice(("Short", "Extended"))]
        least = draw.randrange(5)
        lines += ["MinPollInterval=%d" % least, "MaxPollInterval=%d" % (least + draw.randrange(4))]
        lines += ["MaxAllowedPhaseOffset=%d" % draw.choice((0, 1, 300, NO_LIMIT))]
        lines += ["Max%sPhaseCorrection=%d" % (way, draw.choice((0, 2, 400, NO_LIMIT))) for way in ("Pos", "Neg")]
        for number in range(draw.randrange(1, 5)):
            name = draw.choice(("ME", "DC0", "DC1", "DC2", "DC3"))
            flags = "".join(draw.choice((flag, "-")) for flag in "SRPE")
            if not any(line.startswith("computer %s " % name) for line in lines):
                lines.append("computer %s 10.0.0.%d:%d %s" % (name, number, draw.choice((123, 65535)), flags))
        draw.shuffle(lines)
        return "".join(line + "\n" for line in lines)

    def reply(self, member, now):
        """The datagram of a partner: right in most cases, and else wrong in one place."""
        draw, settings = self.draw, self.settings
        sent, stamp = draw.choice(member.requests) if member.requests else (now, bytes(8))
        ahead = draw.choice((0, 1, -1, 500_000, -1_000_001, 15 * TICKS // 10, 3 * TICKS, -350 * TICKS, 500 * TICKS))
        t2 = max(sent + ahead + max(now - sent, 0) // 2 - draw.randrange(5), 0)
        t3 = t2 + draw.choice((0, 7, -1, max(now - sent, 0), max(now - sent, 0) + 10))
        first, stratum = draw.choice((0x1C,) * 12 + (0xDC, 0x1B)), draw.choice((1,) * 12 + (0, 15, 16))
        header = struct.pack(">BBbb", first, stratum, 4, -23) + draw.randbytes(8) + b"LOCL"
        header += stamp_of(t2) + draw.choice((stamp,) * 12 + (draw.randbytes(8),))
        header += stamp_of(t2) + stamp_of(max(t3, 0))
        rid_bytes = struct.pack("<I", draw.choice((self.rid,) * 12 + (self.rid ^ 1, self.rid | 1 << 31)))
        key = draw.choice(settings.keys[self.rid])
        tail = b"" if settings.short else bytes([draw.randrange(256), 0, 1, draw.choice((1,) * 12 + (0,))])
        digest = digest_of(key, struct.pack("<I", self.rid), header, settings.short)
        if draw.random() < 0.08:
            digest = digest[:-1] + bytes([digest[-1] ^ 1])
        datagram = header + rid_bytes + tail + digest
        return draw.choice((datagram,) * 12 + (datagram[:-1], datagram[:48], b"", datagram + bytes(20)))

    def capture(self, size=60):
        if not self.settings.partners:
            return b""
        draw, member, records = self.draw, Member(self.settings), []
        now = draw.choice((0, 132_223_104_000_000_000, 137_304_520_900_000_000, MOST_READING - 10**12))
        mark = draw.choice((0, 64, LAST_COUNT - 20))
        for number in range(size):
            now += draw.choice((0, 1, 5_000, TICKS, 2 * TICKS, 4 * TICKS, WINDOW, -TICKS))
            now = min(max(now, 0), MOST_READING)
            kind = 1 if number == 0 else draw.choice((1,) + (2,) * 14 + (3,) * 3 + (4,) * 12)
            if kind == 1:
                mark = max(mark, member.most_sent) + (draw.randrange(3) if number else 0)
                event = Event(1, now, mark=min(mark, LAST_COUNT))
                record = b"W32T" + struct.pack(">QI", now, event.mark)
            elif kind == 4:
                partner = draw.choice((self.settings.partners[member.partner],) * 6 + tuple(self.settings.partners))
                datagram = self.reply(member, now)
                event = Event(4, now, sender=partner, datagram=datagram)
                record = struct.pack(">Q4sHH", now, partner.address, partner.port, len(datagram)) + datagram
            else:
                event = Event(kind, now, word=draw.getrandbits(32), flags=draw.choice((0, 2, 4, 6)) if kind == 3 else 0)
                record = struct.pack(">QI", now, event.word) + (struct.pack(">I", event.flags) if kind == 3 else b"")
            records.append(bytes([kind]) + record)
            # What can't come next is written all the same, and ends the judging there.
            if not member.admits(event):
                break
            member.step(event)
        return b"".join(records)


def variants(capture):
    yield capture
    yield capture + capture
    for size in range(len(capture)):
        yield capture[:size]
        flipped = bytearray(capture)
        flipped[size] ^= 1 << size % 8
        yield bytes(flipped)


def kind_of(line):
    """The first word of a line, and of what was judged the last one too."""
    first, *others = line.split(" ")
    return first + " " + others[-1] if first in ("moved", "refused") else first


def compare(program, config, capture_path):
    seen, folder = collections.Counter(), tempfile.TemporaryDirectory()

    def run(path, settings, capture):
        done = subprocess.run([program, "/replay", "/config:" + path], input=capture, capture_output=True)
        ours = (done.stdout.decode(), done.stderr.decode(), done.returncode)
        wanted = replay(settings, capture)
        seen["code %d" % done.returncode] += 1
        seen.update(kind_of(line) for line in ours[0].splitlines())
        if ours != wanted:
            print("the program: %r\nhere: %r\nsettings %s, capture %s" % (ours, wanted, path, capture.hex()))
            sys.exit(1)

    with folder, open(config) as text, open(capture_path, "rb") as capture:
        settings = Settings(text.read())
        for variant in variants(capture.read()):
            run(config, settings, variant)
        for seed in range(400):
            maker = Maker(seed)
            path = os.path.join(folder.name, "made.conf")
            with open(path, "w") as made:
                made.write(maker.text)
            run(path, maker.settings, maker.capture())
    for name, count in sorted(seen.items()):
        print("%6d  %s" % (count, name))
    missing = [reason for reason in REASONS if not seen["refused reason=" + reason]]
    if missing:
        sys.exit("replay.py: never seen: " + " ".join(missing))


def main(words):
    if len(words) == 3 and words[0] == "lines":
        with open(words[1]) as text, open(words[2], "rb") as capture:
            lines, fault, code = replay(Settings(text.read()), capture.read())
        sys.stdout.write(lines)
        sys.stderr.write(fault)
        sys.exit(code)
    if len(words) == 4 and words[0] == "compare":
        compare(*words[1:])
    else:
        sys.exit(__doc__)


if __name__ == "__main__":
    main(sys.argv[1:])
