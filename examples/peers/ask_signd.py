#!/usr/bin/env python3
"""Compares `/dc` with the signing service of a Samba domain, by Python's standard library; for samba_domain.sh.

ask_signd.py PORT SOCKET RID
    Sends a signed request for this RID to `/dc` on 127.0.0.1:PORT, and hands the header of its reply to ntp_signd on the
    UNIX socket SOCKET, as a time server of a Samba domain does. Prints whether both gave the same 68 bytes, or what each
    gave, and ends with 1 where they aren't the same. With `previous` the request asks for the account's previous key.
"""
import os
import socket
import struct
import sys

from signd import HEADER, SIGN_SUCCESS, SIGN_TO_CLIENT, receive, send

WAIT_SECONDS = 2


def request_of(rid):
    header = bytes([3 << 6 | 3 << 3 | 3, 0, 10, 0xE9]) + bytes(36) + os.urandom(8)
    return header + struct.pack("<I", rid) + bytes(16)


def reply_of(port, request):
    """What `/dc` answers, or None where it stays silent."""
    asker = socket.socket(type=socket.SOCK_DGRAM)
    asker.settimeout(WAIT_SECONDS)
    asker.sendto(request, ("127.0.0.1", port))
    try:
        return asker.recv(256)
    except TimeoutError:
        return None


def signed_of(path, header, key_identifier):
    """What ntp_signd makes of a header, or None where it signs nothing: it says so, or closes (a disabled account)."""
    stream = socket.socket(socket.AF_UNIX)
    stream.settimeout(WAIT_SECONDS)
    stream.connect(path)
    call = struct.pack(">IIHH", 0, SIGN_TO_CLIENT, 1, 0) + key_identifier + header
    send(stream, call)
    answer = receive(stream)
    return answer[12:] if answer and struct.unpack(">I", answer[4:8])[0] == SIGN_SUCCESS else None


def shown(message):
    return "nothing" if message is None else message[HEADER:].hex()


def main(port, path, rid):
    request = request_of(rid)
    reply = reply_of(port, request)
    header = reply[:HEADER] if reply else bytes([3 << 3 | 4, 1]) + bytes(46)
    signed = signed_of(path, header, request[HEADER:HEADER + 4])
    if reply != signed:
        sys.exit(f"RID {rid}: /dc gave {shown(reply)} behind the header, ntp_signd {shown(signed)}")
    print(f"RID {rid}: /dc and ntp_signd gave the same {len(reply)} bytes" if reply else f"RID {rid}: neither signed")


if __name__ == "__main__":
    if len(sys.argv) != 4:
        sys.exit(__doc__)
    main(int(sys.argv[1]), sys.argv[2], int(sys.argv[3]))
