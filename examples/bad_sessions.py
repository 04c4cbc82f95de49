#!/usr/bin/env python3
"""What peers that are no clients send to `/service`, by Python's sockets alone; for bad_sessions.sh.

bad_sessions.py count
    Prints how many sessions the next one makes.

bad_sessions.py hostile PORT
    Those sessions with the service on 127.0.0.1:PORT, one after the other. After each answer that has to come the peer closes.
    Prints the line of each that the service has to write, with the ends that it may name; ends with 1 where an answer is
    another one than docs/PROTOCOL.md has.

bad_sessions.py quiet KIND PORT
    A session that goes quiet: `nothing`, `header` (half of one), `pdu` (half of one), `bound` (after its bind), or `deaf`, which
    sends binds and reads no answer. Prints after how many seconds the service closed it.

bad_sessions.py long PORT
    A session of one PDU more than the service takes in one.

bad_sessions.py two PORT
    Two sessions at once: the second one is answered once the first one has ended.

bad_sessions.py full FILE
    Opens a port on loopback to which no further connection comes, since nobody accepts those that are there; writes its number
    to FILE, and waits until it is killed.
"""
import os
import socket
import struct
import sys
import threading
import time

SERVICE = bytes.fromhex("84d8b68f8823d0118c3500c04fda2795") + struct.pack("<HH", 4, 1)
NDR = bytes.fromhex("045d888aeb1cc9119fe808002b104860") + struct.pack("<I", 2)
OTHER = b"\x11" * 16 + struct.pack("<I", 2)
REQUEST, RESPONSE, FAULT, BIND, BIND_ACK, BIND_NAK = 0, 2, 3, 11, 12, 13
NO_CONTEXT, NO_OPERATION, PROTOCOL_ERROR = 0x1C010003, 0x1C010002, 0x1C01000B
WAIT_SECONDS = 60


def pdu(kind, body, call=1, version=5, minor=0, flags=3, drep=0x10, length=None, auth=0):
    length = 16 + len(body) if length is None else length
    return struct.pack("<4B4BHHI", version, minor, kind, flags, drep, 0, 0, 0, length, auth, call) + body


def context(number, interface=SERVICE, syntaxes=(NDR,)):
    return struct.pack("<HBB", number, len(syntaxes), 0) + interface + b"".join(syntaxes)


def bind_body(*contexts):
    return struct.pack("<HHIBBBB", 5840, 5840, 0, len(contexts), 0, 0, 0) + b"".join(contexts)


def bind(*contexts, **how):
    return pdu(BIND, bind_body(*(contexts or (context(0),))), **how)


def request(opnum, stub=b"", number=0, **how):
    return pdu(REQUEST, struct.pack("<IHH", len(stub), number, opnum) + stub, **how)


def ack(*results, call=1):
    body = struct.pack("<HHIHHBBBB", 5840, 5840, 1, 0, 0, len(results), 0, 0, 0)
    for result in results:
        body += struct.pack("<HH", *result) + (NDR if result == (0, 0) else bytes(20))
    return pdu(BIND_ACK, body, call)


def fault(status, call=1, number=0):
    return pdu(FAULT, struct.pack("<IHHII", 0, number, 0, status, 0), call)


def bits(call=1):
    return pdu(RESPONSE, struct.pack("<IHHI", 4, 0, 0, 0), call)


def synced(call):
    """The answer to a sync that doesn't wait, whose result is 0: the same as that of the bits, which are 0 here."""
    return bits(call)


NAK = pdu(BIND_NAK, struct.pack("<HB", 2, 1) + bytes([5, 0]))
ACK = ack((0, 0))
BAD = fault(PROTOCOL_ERROR)


def bad_header(**how):
    """A bind that is wrong in one field of its header."""
    return "BadPdu", bind(**how), fault(PROTOCOL_ERROR, how.get("call", 1))


def hostile():
    """Each session: the ends that the service may name, what the peer sends, and what it is answered."""
    whole = bind()
    yield "Ended", b"", b""
    # The stream ends inside the header, at each byte of it, and inside the PDU.
    for count in range(1, 16):
        yield "Torn", whole[:count], b""
    for count in range(16, 72, 5):
        yield "Torn", whole[:count], b""
    for count in (16, 20, 23):
        yield "Torn", whole + request(1, call=2)[:count], ACK
    # One field of the header is wrong.
    for version in (0, 4, 6, 255):
        yield bad_header(version=version)
    for minor in (1, 2, 255):
        yield bad_header(minor=minor)
    for kind in (1, 4, 5, 10, 14, 15, 16, 17, 18, 19, 20, 128, 255):
        yield "BadPdu", pdu(kind, bytes(56), 7), fault(PROTOCOL_ERROR, 7)
    for flags in (0, 1, 2, 4, 128, 252):
        yield bad_header(flags=flags)
    for drep in (0, 0x20, 0xF0, 1):
        yield bad_header(drep=drep)
    for length in (0, 1, 15, 5841, 65535):
        yield bad_header(length=length)
    for auth in (1, 8, 16, 65535):
        yield bad_header(auth=auth)
    # The call identifier comes back as it is.
    for call in (0, 2**31, 2**32 - 1):
        yield bad_header(version=6, call=call)
    # Of several faults the first one decides, and no byte past the header is read.
    yield "BadPdu", pdu(1, b"", version=6, length=0), BAD
    yield "BadPdu", pdu(BIND, b"", length=5841), BAD
    # A body that is shorter than its type asks.
    for count in (0, 11, 12, 35, 55):
        yield "BadPdu", pdu(BIND, bind_body(context(0))[:count]), BAD
    yield "BadPdu", pdu(BIND, bind_body(context(0, syntaxes=(NDR, NDR)))[:-1]), BAD
    yield "BadPdu", pdu(BIND, struct.pack("<HHIBBBB", 0, 0, 0, 255, 0, 0, 0) + context(0)), BAD
    for count in (0, 7):
        yield "BadPdu", whole + pdu(REQUEST, bytes(count), 2), ACK + fault(PROTOCOL_ERROR, 2)
    for count in (8, 23):
        yield "BadPdu", whole + pdu(REQUEST, bytes(count), 2, flags=0x83), ACK + fault(PROTOCOL_ERROR, 2)
    # What only a server sends.
    for kind, body in ((RESPONSE, bytes(12)), (FAULT, bytes(16)), (BIND_ACK, bytes(40)), (BIND_NAK, bytes(5))):
        yield "BadPdu", pdu(kind, body, 9), fault(PROTOCOL_ERROR, 9)
        yield "BadPdu", whole + pdu(kind, body, 9), ACK + fault(PROTOCOL_ERROR, 9)
    # Other protocols.
    for text in (
        b"GET / HTTP/1.1\r\nHost: localhost\r\n\r\n", b"SSH-2.0-OpenSSH_9.2p1 Debian-2\r\n",
        bytes.fromhex("16030100c8010000c40303") + bytes(194), bytes.fromhex("00000045ff534d4272") + bytes(64),
        b"USER anonymous\r\nPASS guest\r\n", b"\r\n\r\n" * 8, b"\xff" * 4096,
    ):
        yield "BadPdu", text, fault(PROTOCOL_ERROR, *struct.unpack_from("<I", text, 12))
    yield "BadPdu", bytes(100000), fault(PROTOCOL_ERROR, 0)
    for _ in range(20):
        noise = b"\x07" + os.urandom(1023)
        yield "BadPdu", noise, fault(PROTOCOL_ERROR, *struct.unpack_from("<I", noise, 12))
    # Requests that are refused while the session goes on.
    asked = request(1, call=2)
    yield "Ended", request(1), fault(NO_CONTEXT)
    yield "Ended", request(9, number=65535), fault(NO_CONTEXT, number=65535)
    yield "Ended", whole + request(1, number=1, call=2) + request(1, call=3), ACK + fault(NO_CONTEXT, 2, 1) + bits(3)
    for opnum in (2, 4, 255, 65535):
        yield "Ended", whole + request(opnum, bytes(8), call=2) + request(1, call=3), ACK + fault(NO_OPERATION, 2) + bits(3)
    for count in (0, 1, 4, 7):
        yield "Ended", whole + request(0, bytes(count), call=2) + request(1, call=3), ACK + fault(PROTOCOL_ERROR, 2) + bits(3)
    # A stub of bits and of a source is ignored, and so is what is after the fields of a sync that doesn't wait.
    yield "Ended", whole + request(1, b"\xff" * 5000, call=2), ACK + bits(2)
    yield "Ended", whole + request(0, struct.pack("<II", 0, 2) + bytes(100), call=2), ACK + synced(2)
    # Binds: none, one and nine contexts; other interfaces and other transfer syntaxes; one that takes the context away.
    yield "Ended", pdu(BIND, bind_body()), ack()
    yield "Ended", bind(*map(context, range(8))), ack(*[(0, 0)] * 8)
    yield "Ended", bind(*map(context, range(9))), NAK
    yield "Ended", bind(*[context(n, syntaxes=()) for n in range(200)]), NAK
    yield "Ended", whole + bind(*map(context, range(9))) + asked, ACK + NAK + bits(2)
    yield "Ended", bind(context(0, OTHER)) + asked, ack((2, 1)) + fault(NO_CONTEXT, 2)
    yield "Ended", bind(context(0, syntaxes=(OTHER,))) + asked, ack((2, 2)) + fault(NO_CONTEXT, 2)
    yield "Ended", bind(context(0, syntaxes=())) + asked, ack((2, 2)) + fault(NO_CONTEXT, 2)
    yield "Ended", whole + pdu(BIND, bind_body()) + asked, ACK + ack() + fault(NO_CONTEXT, 2)
    yield "Ended", whole + bind(context(1)) + asked, ACK + ACK + fault(NO_CONTEXT, 2)
    yield "Ended", bind(context(0, syntaxes=(OTHER,) * 200 + (NDR,))), ACK


def dropped():
    """Sessions that the peer resets: what it sent before, and how many bytes it took."""
    whole = bind() + request(1, call=2)
    for count in (0, 1, 16, 40, 72, 73, 96):
        yield whole[:count], 0
    for count in (72, 73, 96):
        yield whole[:count], len(ACK)


def connected(port):
    peer = socket.create_connection(("127.0.0.1", port))
    peer.settimeout(WAIT_SECONDS)
    return peer


def take(peer, count):
    taken = b""
    while len(taken) < count:
        piece = peer.recv(count - len(taken))
        if not piece:
            break
        taken += piece
    return taken


def take_all(peer):
    taken = b""
    while True:
        try:
            piece = peer.recv(65536)
        # What the peer sent and nobody read can make a reset of the end.
        except ConnectionResetError:
            return taken
        if not piece:
            return taken
        taken += piece


def exchange(port, sent):
    """What came until the service closed. All is sent meanwhile, whether or not it is read."""
    def send():
        try:
            peer.sendall(sent)
            peer.shutdown(socket.SHUT_WR)
        # It may be closed before it read all.
        except OSError:
            pass

    with connected(port) as peer:
        sender = threading.Thread(target=send)
        sender.start()
        taken = take_all(peer)
        sender.join()
    return taken


def run_hostile(port):
    number = 0
    for end, sent, wanted in hostile():
        number += 1
        taken = exchange(port, sent)
        if taken != wanted:
            sys.exit("bad_sessions.py: session %d (%s, %d bytes): answered %s, and not %s" % (
                number, end, len(sent), taken[:200].hex(), wanted[:200].hex()))
        print("session n=%d end=%s" % (number, end))
    for sent, answered in dropped():
        number += 1
        with connected(port) as peer:
            peer.sendall(sent)
            take(peer, answered)
            peer.setsockopt(socket.SOL_SOCKET, socket.SO_LINGER, struct.pack("ii", 1, 0))
        print("session n=%d end=(ReadFault|WriteFault)" % number)
    # After all of them the service does what it is for.
    number += 1
    taken = exchange(port, bind() + request(0, struct.pack("<II", 0, 2), call=2) + request(1, call=3))
    wanted = ACK + synced(2) + bits(3)
    if taken != wanted:
        sys.exit("bad_sessions.py: at last: answered %s, and not %s" % (taken.hex(), wanted.hex()))
    print("session n=%d end=Ended" % number)


def run_quiet(kind, port):
    sent = {"nothing": b"", "header": bind()[:8], "pdu": bind()[:40], "bound": bind(), "deaf": b""}[kind]
    with socket.socket() as peer:
        # Little is kept of what nobody reads.
        peer.setsockopt(socket.SOL_SOCKET, socket.SO_RCVBUF, 4096)
        peer.setsockopt(socket.SOL_SOCKET, socket.SO_SNDBUF, 4096)
        peer.connect(("127.0.0.1", port))
        peer.sendall(sent)
        begin = time.monotonic()
        try:
            if kind == "deaf":
                send_on(peer)
            peer.settimeout(WAIT_SECONDS)
            take_all(peer)
        except (BrokenPipeError, ConnectionResetError):
            pass
        print("%d" % (time.monotonic() - begin))


def send_on(peer):
    """Sends binds and reads no answer, until the service closes, which is an error of a send."""
    peer.setblocking(False)
    left = b""
    while True:
        left = left or bind(*map(context, range(8)))
        try:
            left = left[peer.send(left) :]
        except BlockingIOError:
            time.sleep(0.1)


def run_long(port):
    taken = exchange(port, bind() + request(1, call=2) * 10000)
    if taken != ACK + bits(2) * 9999:
        sys.exit("bad_sessions.py: a session of 10,001 PDUs: answered %d bytes" % len(taken))


def run_two(port):
    with connected(port) as first, connected(port) as second:
        first.sendall(bind())
        second.sendall(bind())
        if take(first, len(ACK)) != ACK:
            sys.exit("bad_sessions.py: the first of two has no answer")
        second.settimeout(2)
        try:
            second.recv(1)
            sys.exit("bad_sessions.py: the second of two was answered beside the first")
        except TimeoutError:
            pass
        first.sendall(request(1, call=2))
        if take(first, len(bits())) != bits(2):
            sys.exit("bad_sessions.py: the first of two isn't served on")
        first.close()
        second.settimeout(WAIT_SECONDS)
        if take(second, len(ACK)) != ACK:
            sys.exit("bad_sessions.py: the second of two has no answer")


def run_full(path):
    with socket.create_server(("127.0.0.1", 0), backlog=0) as listener:
        port = listener.getsockname()[1]
        waiting = []
        for _ in range(4):
            peer = socket.socket()
            peer.setblocking(False)
            peer.connect_ex(("127.0.0.1", port))
            waiting.append(peer)
        time.sleep(0.5)
        with open(path + ".new", "w", encoding="ascii") as file:
            file.write("%d\n" % port)
        os.rename(path + ".new", path)
        time.sleep(600)


def main():
    if sys.argv[1] == "count":
        print(sum(1 for _ in hostile()) + sum(1 for _ in dropped()) + 1)
    elif sys.argv[1] == "hostile":
        run_hostile(int(sys.argv[2]))
    elif sys.argv[1] == "quiet":
        run_quiet(sys.argv[2], int(sys.argv[3]))
    elif sys.argv[1] == "long":
        run_long(int(sys.argv[2]))
    elif sys.argv[1] == "two":
        run_two(int(sys.argv[2]))
    else:
        run_full(sys.argv[2])


if __name__ == "__main__":
    main()
