#!/usr/bin/env python3
"""What chronyd needs beside it to answer a member, by Python's standard library; for keep_time.sh.

chronyd signs by a symmetric key only for a request with a digest under that key. A member's request has zeros there, as
MS-SNTP has it, and chronyd hands the reply to such a request to a signing service.

signer.py fill PORT SERVER KEY
    On 127.0.0.1:PORT, puts the digest under KEY (hexadecimal digits) into each request, asks the server on
    127.0.0.1:SERVER, and hands back each of its replies as it came.

signer.py sign FOLDER RID KEY
    The signing service of a Samba domain in FOLDER, for one account: signs with MD5 what chronyd hands over.
"""
import hashlib
import os
import socket
import struct
import sys

from signd import HEADER, SHORT, SIGN_FAILURE, SIGN_SUCCESS, SIGN_TO_CLIENT, receive, send


def digest(key, header):
    return hashlib.md5(key + header).digest()


def fill(port, server, key):
    member_side = socket.socket(type=socket.SOCK_DGRAM)
    member_side.bind(("127.0.0.1", port))
    server_side = socket.socket(type=socket.SOCK_DGRAM)
    server_side.connect(("127.0.0.1", server))
    server_side.settimeout(0.5)
    while True:
        request, member = member_side.recvfrom(256)
        if len(request) != SHORT or any(request[52:]):
            print(f"signer.py: no member's request: {request.hex()}", file=sys.stderr)
            continue
        server_side.send(request[:52] + digest(key, request[:HEADER]))
        try:
            member_side.sendto(server_side.recv(256), member)
        except TimeoutError:
            print("signer.py: no reply", file=sys.stderr)


def sign(folder, rid, key):
    service = socket.socket(socket.AF_UNIX)
    service.bind(os.path.join(folder, "socket"))
    service.listen()
    while True:
        stream, _ = service.accept()
        while (call := receive(stream)) is not None:
            version, operation, packet = struct.unpack(">IIH", call[:10])
            # The RID is lowest byte first, as in the message.
            asked = struct.unpack("<I", call[12:16])[0]
            header = call[16:]
            if (version, operation, asked & 0x7FFFFFFF, len(header)) == (0, SIGN_TO_CLIENT, rid, HEADER):
                answer = struct.pack(">III", 0, SIGN_SUCCESS, packet) + header + call[12:16] + digest(key, header)
            else:
                answer = struct.pack(">III", 0, SIGN_FAILURE, packet)
            send(stream, answer)


def main(words):
    match words:
        case ["fill", port, server, key]:
            fill(int(port), int(server), bytes.fromhex(key))
        case ["sign", folder, rid, key]:
            sign(folder, int(rid), bytes.fromhex(key))
        case _:
            sys.exit(__doc__)


if __name__ == "__main__":
    main(sys.argv[1:])
