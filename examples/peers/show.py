#!/usr/bin/env python3
"""What `/show:HEX` has to print, by Python's own struct; it shares no line with it.

show.py HEX
    Prints the fields of the message that these hexadecimal digits spell, and ends with 1 where they spell none.
"""
import struct
import sys


def show(b):
    first, stratum, poll, precision, delay, dispersion = struct.unpack(">BBbbiI", b[:12])
    stamps = tuple(b[at : at + 8].hex() for at in (16, 24, 32, 40))
    text = "leap=%d version=%d mode=%d stratum=%d poll=%d precision=%d\n" % (
        first >> 6, first >> 3 & 7, first & 7, stratum, poll, precision)
    text += "rootdelay=%d rootdispersion=%d refid=%s\n" % (delay, dispersion, b[12:16].hex())
    text += "reference=%s originate=%s\nreceive=%s transmit=%s\n" % stamps
    if len(b) == 48:
        return text + "tail=plain\n"
    if len(b) == 68:
        return text + "tail=short keyid=%08x checksum=%s\n" % (struct.unpack("<I", b[48:52])[0], b[52:].hex())
    if len(b) == 120:
        return text + "tail=extended rid=%d reserved=%d flags=%d hints=%d hash=%d checksum=%s\n" % (
            *struct.unpack("<IBBBB", b[48:56]), b[56:].hex())
    sys.exit("w32tm: bad request, BadLength")


if __name__ == "__main__":
    sys.stdout.write(show(bytes.fromhex(sys.argv[1])))
