"""Messages of ntp_signd, the signing service of a Samba domain: each is its length in four bytes, and then itself.

For ask_signd.py, which asks such a service, and signer.py, which is one.
"""
import struct

HEADER, SHORT = 48, 68
SIGN_TO_CLIENT, SIGN_SUCCESS, SIGN_FAILURE = 0, 3, 4


def take(stream, count):
    """So many bytes, or None where the other side closes before."""
    taken = b""
    while len(taken) < count:
        piece = stream.recv(count - len(taken))
        if not piece:
            return None
        taken += piece
    return taken


def receive(stream):
    """The next message, or None where the other side closes before its end."""
    length = take(stream, 4)
    return length and take(stream, *struct.unpack(">I", length))


def send(stream, message):
    stream.sendall(struct.pack(">I", len(message)) + message)
