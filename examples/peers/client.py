#!/usr/bin/env python3
"""A client of `/dc` that shares nothing with it: Python's sockets, hashlib and hmac, and no line of ours.

client.py ask PORT CONFIG
    Asks the controller on 127.0.0.1:PORT, which has these settings, for the time in every form that it answers, and
    judges each reply, field by field, digest and time. Then it sends what a controller refuses, every other length
    up to 1,500 bytes, every other version and mode, unknown accounts and previous keys that aren't there, and looks
    that none is answered. Prints a line for each, and then the closing lines that `/dc` has to write of all this, but
    for their last. The settings need an account with a previous key and one without.

client.py fill PORT COUNT
    Sends up to COUNT plain requests, one after the other, until none is answered. So `/dc` comes to its last turn.
"""
import hashlib
import hmac
import os
import socket
import struct
import sys
import time

SECONDS_TO_1970 = 2_208_988_800
HEADER = struct.Struct(">BBbbiI4s8s8s8s8s")
WAIT_SECONDS = 5


def fail(text):
    sys.exit("client.py: " + text)


def seconds_of(stamp):
    """Seconds since 1970 of a timestamp, in the era that began in 1900 or the one after it."""
    seconds, fraction = struct.unpack(">II", stamp)
    if seconds < 1 << 31:
        seconds += 1 << 32
    return seconds - SECONDS_TO_1970 + fraction / 2**32


def header(version=3, mode=3, poll=10):
    """The header of a request, with a transmit timestamp that nobody can guess."""
    return bytes([3 << 6 | version << 3 | mode, 0, poll & 0xFF, 0xE9]) + bytes(36) + os.urandom(8)


def short_tail(rid, old=False):
    return struct.pack("<I", rid | (old << 31)) + bytes(16)


def extended_tail(rid, old=False):
    return struct.pack("<IBBBB", rid, 0, int(old), 1, 0) + bytes(64)


def derived(key, rid):
    """SP 800-108, counter mode, one round of HMAC with SHA-512."""
    fixed = b"sntp-ms" + b"\0" + struct.pack("<I", rid) + struct.pack(">I", 512)
    return hmac.new(key, struct.pack(">I", 1) + fixed, hashlib.sha512).digest()


class Client:
    def __init__(self, port):
        self.socket = socket.socket(socket.AF_INET, socket.SOCK_DGRAM)
        self.socket.bind(("127.0.0.1", 0))
        self.socket.settimeout(WAIT_SECONDS)
        self.to = ("127.0.0.1", port)
        self.signed = 0
        self.plain = 0

    def send(self, request):
        self.socket.sendto(request, self.to)

    def reply(self):
        try:
            reply, sender = self.socket.recvfrom(2048)
        except socket.timeout:
            fail("no answer")
        if sender != self.to:
            fail("an answer from %s:%d" % sender)
        return reply

    def check_header(self, request, reply, sent, came):
        """Judges the 48 bytes, and gives the offset of the controller's clock from this one in seconds."""
        asked = HEADER.unpack(request[:48])
        got = HEADER.unpack(reply[:48])
        first, stratum, poll, precision, delay, dispersion, identifier, reference, originate, receive, transmit = got
        mode = {1: 2, 3: 4}[asked[0] & 7]
        expected = {
            "leap": (first >> 6, 0),
            "version": (first >> 3 & 7, asked[0] >> 3 & 7),
            "mode": (first & 7, mode),
            "stratum": (stratum, 1),
            "poll": (poll, asked[2]),
            "precision": (precision, -23),
            "root delay": (delay, 0),
            "root dispersion": (dispersion, 0),
            "reference identifier": (identifier, b"LOCL"),
            "reference timestamp": (reference, receive),
            "originate timestamp": (originate, asked[10]),
        }
        for name, (value, wanted) in expected.items():
            if value != wanted:
                fail("%s is %r and not %r" % (name, value, wanted))
        if transmit < receive:
            fail("sent before it came")
        t2, t3 = seconds_of(receive), seconds_of(transmit)
        offset, delay = ((t2 - sent) + (t3 - came)) / 2, (came - sent) - (t3 - t2)
        # Both clocks are this machine's, so the offset can't be past half the way there and back.
        if abs(offset) > delay / 2 + 1e-5:
            fail("offset %f s, with a delay of %f s" % (offset, delay))
        return offset

    def exchange(self, request, check_tail):
        """Sends a request and judges the reply: what agrees, and the offset in seconds."""
        sent = time.time()
        self.send(request)
        reply = self.reply()
        came = time.time()
        if len(reply) != len(request):
            fail("%d bytes for %d" % (len(reply), len(request)))
        offset = self.check_header(request, reply, sent, came)
        if len(request) == 48:
            self.plain += 1
        else:
            self.signed += 1
        return check_tail(request, reply), offset

    def ask(self, name, request, check_tail):
        verified, offset = self.exchange(request, check_tail)
        print("%-33s %3d bytes, %s, offset %+.6f s" % (name, len(request), verified, offset))

    def send_refused(self, requests):
        """Sends what is refused. A plain request after each few has the next reply, and none comes for the others."""
        for number, request in enumerate(requests):
            self.send(request)
            if number % 32 == 31:
                self.exchange(header(), no_tail)
        self.exchange(header(), no_tail)


def no_tail(_, reply):
    return "header agrees"


def short_check(key):
    def check(request, reply):
        if reply[48:52] != request[48:52]:
            fail("another key identifier")
        if reply[52:] != hashlib.md5(key + reply[:48]).digest():
            fail("the MD5 digest is another one")
        return "MD5 agrees"
    return check


def extended_check(key, old):
    def check(request, reply):
        if reply[48:56] != request[48:52] + bytes([0, old, 1, 1]):
            fail("another tail: " + reply[48:56].hex())
        rid = struct.unpack("<I", request[48:52])[0]
        if not hmac.compare_digest(reply[56:], hmac.new(derived(key, rid), reply[:48], hashlib.sha512).digest()):
            fail("the HMAC is another one")
        return "HMAC-SHA512 agrees"
    return check


def accounts_of(config):
    """The keys of each RID in a settings text."""
    with open(config, "rb") as text:
        lines = [line.split() for line in text if line.startswith(b"account ")]
    return {int(line[1]): [bytes.fromhex(key.decode()) for key in line[2:]] for line in lines}


def ask(port, accounts):
    rid, (key, previous) = next((rid, keys) for rid, keys in accounts.items() if len(keys) == 2)
    single = next(rid for rid, keys in accounts.items() if len(keys) == 1)
    unknown = max(accounts) + 1
    client = Client(port)
    for version in (1, 2, 3, 4):
        client.ask("plain, version %d" % version, header(version=version), no_tail)
    client.ask("plain, symmetric active", header(mode=1, poll=-6), no_tail)
    client.ask("short, current key", header() + short_tail(rid), short_check(key))
    client.ask("short, version 4", header(version=4) + short_tail(rid), short_check(key))
    client.ask("short, previous key", header() + short_tail(rid, old=True), short_check(previous))
    # Nobody looks at the checksum of a request.
    client.ask("short, a checksum in the request", header() + struct.pack("<I", rid) + os.urandom(16), short_check(key))
    client.ask("extended, current key", header() + extended_tail(rid), extended_check(key, 0))
    client.ask("extended, previous key", header() + extended_tail(rid, old=True), extended_check(previous, 1))
    noisy = struct.pack("<IBBBB", rid, 7, 0xFE, 0xFF, 9) + os.urandom(64)
    client.ask("extended, noise in the request", header() + noisy, extended_check(key, 0))

    tails = (b"", short_tail(rid), extended_tail(rid))
    other_versions, other_modes = (0, 5, 6, 7), (0, 2, 4, 5, 6, 7)
    wrong_versions = [header(version, mode) for version in other_versions for mode in range(8)]
    wrong_modes = [header(version, mode) for version in (1, 2, 3, 4) for mode in other_modes]
    refused = {
        "BadLength": [(header() + bytes(1452))[:length] for length in range(1501) if length not in (48, 68, 120)],
        "BadVersion": [front + tail for front in wrong_versions for tail in tails],
        "BadMode": [front + tail for front in wrong_modes for tail in tails],
        "UnknownAccount": [header() + short_tail(unknown), header() + extended_tail(rid | 1 << 31)],
        "NoOldKey": [header() + short_tail(single, old=True), header() + extended_tail(single, old=True)],
    }
    for name, requests in refused.items():
        client.send_refused(requests)
        print("%-33s %d requests, no answer" % (name, len(requests)))
    print("signed=%d plain=%d" % (client.signed, client.plain))
    print("refused " + " ".join("%s=%d" % (name, len(requests)) for name, requests in refused.items()))


def fill(port, count):
    client = Client(port)
    client.socket.settimeout(0.5)
    for _ in range(count):
        client.send(header())
        try:
            client.socket.recv(2048)
        except socket.timeout:
            return


def main(words):
    if len(words) == 3 and words[0] == "fill":
        fill(int(words[1]), int(words[2]))
    elif len(words) == 3 and words[0] == "ask":
        ask(int(words[1]), accounts_of(words[2]))
    else:
        sys.exit(__doc__)


if __name__ == "__main__":
    main(sys.argv[1:])
