#!/usr/bin/env python3
"""Time services for `/resync` and `/query` to ask: one on impacket's server, and listeners that are none.

time_service.py serve PORTS CALLS
    Opens a port on loopback for each service on impacket's DCERPCServer, writes a line `NAME PORT` of each to PORTS, and
    serves them until it is killed. A line of each call that came stands in CALLS.

time_service.py wrong PORTS
    The same for listeners that don't speak the protocol, or not to its end.

Needs impacket, Debian's python3-impacket, for `serve`; without it that ends with 77.
"""
import os
import socket
import struct
import sys
import threading
import time

SERVICE = ("8fb6d884-2388-11d0-8c35-00c04fda2795", "4.1")
OTHER_SERVICE = ("8fb6d884-2388-11d0-8c35-00c04fda2796", "4.1")
# A reply that accepts the bind with the identifier 1, and the beginning of one to the call.
ACCEPTED = bytes.fromhex(
    "05000c03100000003800000001000000d016d016010000000000000001000000"
    "00000000045d888aeb1cc9119fe808002b10486002000000"
)
LATE_SECONDS = 40


# ---- Services on impacket's server

def serving(ports, calls):
    try:
        from impacket.dcerpc.v5 import rpcrt
        from impacket.dcerpc.v5.dtypes import LPWSTR, ULONG
        from impacket.dcerpc.v5.ndr import NDRCALL
    except ImportError:
        sys.exit(77)

    class Sync(NDRCALL):
        structure = (("ulWait", ULONG), ("ulFlags", ULONG))

    class Number(NDRCALL):
        structure = (("ErrorCode", ULONG),)

    class Source(NDRCALL):
        structure = (("pwszTimeSource", LPWSTR), ("ErrorCode", ULONG))

    def note(line):
        with open(calls, "a", encoding="utf-8") as file:
            file.write(line + "\n")

    def number(value):
        response = Number()
        response["ErrorCode"] = value
        return response.getData()

    def synced(name, result):
        def answer(stub):
            request = Sync(stub)
            note("%s sync wait=%d flags=%d" % (name, request["ulWait"], request["ulFlags"]))
            return number(result)
        return answer

    def announced(name, bits):
        def answer(stub):
            note("%s bits stub=%d" % (name, len(stub)))
            return number(bits)
        return answer

    def sourced(name, source):
        def answer(stub):
            note("%s source stub=%d" % (name, len(stub)))
            response = Source()
            response["pwszTimeSource"], response["ErrorCode"] = source + "\0", 0
            return response.getData()
        return answer

    # Its server can't log an interface or an operation that it doesn't serve: a fault of its line for the log.
    rpcrt.bin_to_uuidtup = str
    rpcrt.LOG.disabled = True
    # Each service: how it answers sync, bits and source. Of the last two one serves another interface, and one sync alone.
    for name, service, result, bits, source in (
        ("well", SERVICE, 0, 0x240, "DC1"),
        ("no_time", SERVICE, 1, 0, "Local CMOS Clock"),
        ("too_big", SERVICE, 3, 0xFFFFFFFF, "n" * 63),
        ("other_result", SERVICE, 4294967295, 0x80000000, "n" * 64),
        ("no_ascii", SERVICE, 2, 1, "Zürich"),
        ("other_service", OTHER_SERVICE, 0, 0, "DC1"),
        ("sync_alone", SERVICE, 5, None, None),
    ):
        server = rpcrt.DCERPCServer()
        answers = {0: synced(name, result)}
        if source is not None:
            answers.update({1: announced(name, bits), 3: sourced(name, source)})
        server.addCallbacks(service, "\\PIPE\\W32TIME", answers)
        server.daemon = True
        server.start()
        ports.append((name, server.getListenPort()))


# ---- Listeners that are none

def closes(_peer):
    """Closes before anything came."""


def hears_and_closes(peer):
    peer.recv(512)


def resets(peer):
    peer.recv(512)
    peer.setsockopt(socket.SOL_SOCKET, socket.SO_LINGER, struct.pack("ii", 1, 0))


def says(bytes_):
    def answer(peer):
        peer.recv(512)
        peer.sendall(bytes_)
        peer.recv(512)
    return answer


def says_and_closes(bytes_):
    def answer(peer):
        peer.recv(512)
        peer.sendall(bytes_)
    return answer


def accepts_and(bytes_, seconds):
    """Accepts the bind, and answers the call by these bytes; then it waits."""
    def answer(peer):
        peer.recv(512)
        peer.sendall(ACCEPTED)
        peer.recv(512)
        peer.sendall(bytes_)
        time.sleep(seconds)
    return answer


def in_pieces(peer):
    """Accepts the bind and answers with the number 0, a byte at a time."""
    answer = bytes.fromhex("05000203100000001c00000002000000040000000000000000000000")
    for bytes_ in (ACCEPTED, answer):
        peer.recv(512)
        for byte in bytes_:
            peer.sendall(bytes([byte]))
            time.sleep(0.01)


def is_silent(_peer):
    time.sleep(LATE_SECONDS)


LISTENERS = (
    ("closes", closes),
    ("hears_and_closes", hears_and_closes),
    ("resets", resets),
    ("http", says(b"HTTP/1.1 400 Bad Request\r\nConnection: close\r\n\r\n")),
    ("ssh", says(b"SSH-2.0-OpenSSH_9.2p1 Debian-2\r\n")),
    ("tls", says_and_closes(bytes.fromhex("15030300020228"))),
    ("zeros", says(bytes(4096))),
    ("random", says(os.urandom(100000))),
    # The header of a bind_ack of 65,535 bytes without the rest, and one of a PDU with authentication.
    ("longest", says(bytes.fromhex("05000c0310000000ffff000001000000") + bytes(5000))),
    ("signed", says(bytes.fromhex("05000c03100000004400080001000000") + bytes(60))),
    # A bind_nak, and a fault for a call.
    ("nak", says(bytes.fromhex("05000d031000000015000000010000000200010500"))),
    ("fault", accepts_and(bytes.fromhex("0500030310000000200000000200000000000000000000000200011c00000000"), 0)),
    ("half", accepts_and(bytes.fromhex("05000203100000001c000000020000000400"), 0)),
    ("in_pieces", in_pieces),
    ("silent", is_silent),
    ("silent_at_the_call", accepts_and(b"", LATE_SECONDS)),
    ("half_and_silent", accepts_and(bytes.fromhex("05000203100000001c000000020000000400"), LATE_SECONDS)),
)


def listen(listener, answer):
    while True:
        peer, _ = listener.accept()
        threading.Thread(target=session, args=(peer, answer), daemon=True).start()


def session(peer, answer):
    with peer:
        try:
            answer(peer)
        except OSError:
            pass


def wrong(ports):
    for name, answer in LISTENERS:
        listener = socket.create_server(("127.0.0.1", 0))
        threading.Thread(target=listen, args=(listener, answer), daemon=True).start()
        ports.append((name, listener.getsockname()[1]))


def main():
    ports = []
    if sys.argv[1] == "serve":
        serving(ports, sys.argv[3])
    else:
        wrong(ports)
    # The file is there when it is whole.
    with open(sys.argv[2] + ".new", "w", encoding="utf-8") as file:
        for name, port in ports:
            file.write("%s %d\n" % (name, port))
    os.rename(sys.argv[2] + ".new", sys.argv[2])
    while True:
        time.sleep(60)


if __name__ == "__main__":
    main()
