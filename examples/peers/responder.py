#!/usr/bin/env python3
"""Time servers for `/monitor` and `/member` to ask, with answers right and wrong. They share no line with the program.

responder.py serve CONFIG
    Opens a socket on loopback for each server, writes the settings text of a domain of them to CONFIG, and answers.
    Ends when each of them was asked once, and after 30 seconds in any case.

responder.py judge
    Reads the lines of `/monitor` from standard input, and judges each.

responder.py sign PORT KEY FILE
    Answers members on 127.0.0.1:PORT by short messages signed under KEY (hexadecimal digits), until it is killed. FILE
    has the number of seconds that it is ahead of this machine, and then `forged` where it signs under another key. It is
    read anew for each request.
"""
import hashlib
import os
import re
import selectors
import socket
import struct
import sys
import time

SECONDS_TO_1970 = 2_208_988_800
TICKS = 10_000_000
LIFE_SECONDS = 30
# The length of a short message, in bytes.
SHORT = 68


def stamp(moment):
    """The timestamp of a moment, in nanoseconds since 1970."""
    seconds, rest = divmod(moment, 10**9)
    return struct.pack(">II", (seconds + SECONDS_TO_1970) % 2**32, (rest << 32) // 10**9)


class Server:
    """A server that is ahead of this machine by so many seconds, and answers as the other arguments say."""

    def __init__(self, name, wanted, ahead=0.0, first=0x1C, stratum=3, thinks=0.0, stays=0.0, answer=None):
        self.name = name
        self.wanted = wanted
        self.ahead = round(ahead * 10**9)
        self.first = first
        self.stratum = stratum
        self.thinks = thinks
        self.stays = round(stays * 10**9)
        self.answer = answer

    def reply(self, request):
        came = time.time_ns() + self.ahead
        time.sleep(self.thinks)
        sent = time.time_ns() + self.ahead + self.stays
        header = struct.pack(">BBbbiI4s", self.first, self.stratum, 4, -20, 100, 200, b"TEST")
        reply = header + stamp(came) + request[40:48] + stamp(came) + stamp(sent)
        return self.answer(reply) if self.answer else reply


# In the order of the settings text. A number is the offset that has to be found, in seconds; a word is the error.
SERVERS = [
    Server("Right", 0.0),
    Server("Ahead", 12.5, ahead=12.5, stratum=1),
    Server("Behind", -3600.0, ahead=-3600.0, stratum=15),
    Server("NextEra", 2.0**31 - 3600, ahead=2.0**31 - 3600),
    Server("Slow", 0.0, thinks=0.2),
    Server("Silent", "NoAnswer", answer=lambda reply: None),
    Server("Closed", "NoAnswer"),
    Server("Short", "BadLength", answer=lambda reply: reply[:47]),
    Server("Signed", "BadLength", answer=lambda reply: reply + bytes(20)),
    Server("Long", "BadLength", answer=lambda reply: reply + bytes(1000)),
    Server("Elsewhere", "BadSource"),
    Server("Client", "BadMode", first=0x1B),
    Server("Broadcast", "BadMode", first=0x1D),
    Server("Kiss", "BadStratum", stratum=0),
    Server("Lost", "BadStratum", stratum=16),
    Server("Unset", "BadStratum", first=0xDC),
    Server("Forger", "NoRequest", answer=lambda reply: reply[:24] + bytes(8) + reply[32:]),
    Server("Guesser", "NoRequest", answer=lambda reply: reply[:31] + bytes([reply[31] ^ 1]) + reply[32:]),
    Server("Backwards", "BadTimes", answer=lambda reply: reply[:32] + reply[40:48] + reply[32:40], thinks=0.01),
    Server("Eager", "BadTimes", stays=5.0),
]


def settings(ports):
    yield "# Servers of examples/peers/responder.py."
    yield "Name=Right"
    yield "Role=Member"
    yield "Rid=1103"
    yield "account 1103 " + bytes(16).hex()
    for server, port in zip(SERVERS, ports):
        yield "computer %s 127.0.0.1:%d S---" % (server.name, port)


def loopback():
    opened = socket.socket(socket.AF_INET, socket.SOCK_DGRAM)
    opened.bind(("127.0.0.1", 0))
    return opened


def serve(config):
    sockets = [loopback() for _ in SERVERS]
    elsewhere = loopback()
    ports = [opened.getsockname()[1] for opened in sockets]
    selector = selectors.DefaultSelector()
    for server, opened in zip(SERVERS, sockets):
        if server.name == "Closed":
            opened.close()
        else:
            selector.register(opened, selectors.EVENT_READ, server)
    with open(config + ".new", "w") as text:
        text.writelines(line + "\n" for line in settings(ports))
    os.rename(config + ".new", config)

    end = time.monotonic() + LIFE_SECONDS
    while selector.get_map() and time.monotonic() < end:
        for key, _ in selector.select(timeout=1):
            request, sender = key.fileobj.recvfrom(2048)
            reply = key.data.reply(request)
            if reply is not None:
                (elsewhere if key.data.name == "Elsewhere" else key.fileobj).sendto(reply, sender)
            # It stays open, so that nobody else gets its port while others are asked.
            selector.unregister(key.fileobj)


def fault_of(server, line):
    """What is wrong with a server's line, or None."""
    if isinstance(server.wanted, str):
        return None if line == "%s error=%s" % (server.name, server.wanted) else "error=%s is wanted" % server.wanted
    found = re.fullmatch(r"%s offset=(-?\d+) delay=(\d+) stratum=(\d+)" % server.name, line)
    if not found:
        return "an offset is wanted"
    offset, delay, stratum = map(int, found.groups())
    # Both clocks are this machine's, so the offset is at most half of the delay away, and two ticks for rounding.
    if abs(offset - round(server.wanted * TICKS)) > delay / 2 + 2:
        return "an offset of %.1f seconds is wanted" % server.wanted
    if stratum != server.stratum:
        return "stratum %d is wanted" % server.stratum
    if server.thinks and delay > server.thinks * TICKS / 2:
        return "what the server took is no delay"
    return None


def judge():
    lines = sys.stdin.read().split("\n")
    answered = sum(not isinstance(server.wanted, str) for server in SERVERS)
    total = "total computers=%d answered=%d" % (len(SERVERS), answered)
    wrong = len(lines) != len(SERVERS) + 2 or lines[-2:] != [total, ""]
    if wrong:
        print("the end is wrong: %r, and %s is wanted" % (lines[-2:], total))
    for server, line in zip(SERVERS, lines):
        fault = fault_of(server, line)
        print(line + (": " + fault if fault else ""))
        wrong = wrong or bool(fault)
    print(lines[-2] if len(lines) > 1 else "no line")
    sys.exit(wrong)


def sign(port, key, path):
    opened = socket.socket(socket.AF_INET, socket.SOCK_DGRAM)
    opened.bind(("127.0.0.1", port))
    while True:
        request, sender = opened.recvfrom(2048)
        if len(request) != SHORT:
            continue
        with open(path) as text:
            ahead, *forged = text.read().split()
        header = Server("Signer", None, ahead=float(ahead)).reply(request)
        under = bytes([key[0] ^ 1]) + key[1:] if forged else key
        opened.sendto(header + request[48:52] + hashlib.md5(under + header).digest(), sender)


if __name__ == "__main__":
    if len(sys.argv) == 3 and sys.argv[1] == "serve":
        serve(sys.argv[2])
    elif len(sys.argv) == 5 and sys.argv[1] == "sign":
        sign(int(sys.argv[2]), bytes.fromhex(sys.argv[3]), sys.argv[4])
    elif sys.argv[1:] == ["judge"]:
        judge()
    else:
        sys.exit(__doc__)
