#!/usr/bin/env python3
"""Clients of `/service` by impacket and by Samba: they bind, make the three calls, and what a service has to refuse.

time_client.py impacket PORT AHEAD
time_client.py samba PORT AHEAD
    Sessions with the service on 127.0.0.1:PORT, whose one partner is `responder.py sign` with the file AHEAD. What that
    partner says is written there before a call. Prints a line for each call, and last how many sessions there were; ends with 1
    where an answer is another one than docs/PROTOCOL.md has.

Needs Debian's python3-impacket or python3-samba; without it that ends with 77.
"""
import os
import struct
import sys

SERVICE = ("8fb6d884-2388-11d0-8c35-00c04fda2795", "4.1")
OTHER_SERVICE = ("8fb6d884-2388-11d0-8c35-00c04fda2796", "4.1")
OBJECT = b"\x33" * 16
SYNC, BITS, SOURCE = 0, 1, 3
NO_CLOCK = "Local CMOS Clock"
# What Samba makes of three refusals: PROCNUM_OUT_OF_RANGE, PROTOCOL_ERROR and UNSUPPORTED_NAME_SYNTAX of NT_STATUS_RPC.
FAULTS = {"operation 2": 0xC002002E, "a short stub": 0xC002001D, "another interface": 0xC0020026}
# What the partner says, and the result of a sync that waits for it.
RIGHT, FAR, FORGED = ("0", 0), ("200", 3), ("0 forged", 1)


def expect(what, found, wanted):
    print("%s: %s" % (what, found))
    if found != wanted:
        sys.exit("time_client.py: %s: %r, and not %r" % (what, found, wanted))


def say(path, text):
    """The partner answers by this from now on. It reads the file at any moment, so that is put in place whole."""
    with open(path + ".new", "w", encoding="ascii") as file:
        file.write(text + "\n")
    os.rename(path + ".new", path)


# ---- impacket

def by_impacket(port, ahead):
    try:
        from impacket.dcerpc.v5 import rpcrt, transport
        from impacket.dcerpc.v5.dtypes import LPWSTR, ULONG
        from impacket.dcerpc.v5.ndr import NDRCALL
        from impacket.uuid import uuidtup_to_bin
    except ImportError:
        sys.exit(77)

    # impacket finds a reply's class by the request's name.
    number = (("ErrorCode", ULONG),)
    source = (("pwszTimeSource", LPWSTR), ("ErrorCode", ULONG))
    classes = {}
    for name, opnum, asked, answered in (
        ("W32TimeSync", SYNC, (("ulWait", ULONG), ("ulFlags", ULONG)), number),
        ("W32TimeGetNetlogonServiceBits", BITS, (), number),
        ("W32TimeQuerySource", SOURCE, (), source),
    ):
        classes[opnum] = type(name, (NDRCALL,), {"opnum": opnum, "structure": asked, "__module__": __name__})
        answer = type(name + "Response", (NDRCALL,), {"structure": answered, "__module__": __name__})
        setattr(sys.modules[__name__], name + "Response", answer)
    sessions = 0

    def connected():
        nonlocal sessions
        sessions += 1
        client = transport.DCERPCTransportFactory("ncacn_ip_tcp:127.0.0.1[%d]" % port).get_dce_rpc()
        client.connect()
        return client

    def bound(**how):
        client = connected()
        client.bind(uuidtup_to_bin(SERVICE), **how)
        return client

    def sync(client, wait, flags, wanted, object_=None):
        request = classes[SYNC]()
        request["ulWait"], request["ulFlags"] = wait, flags
        result = client.request(request, object_, checkError=False)["ErrorCode"]
        expect("sync wait=%d flags=%d" % (wait, flags), result, wanted)

    def bits(client, wanted, object_=None):
        expect("bits", client.request(classes[BITS](), object_, checkError=False)["ErrorCode"], wanted)

    def name(client, wanted, object_=None):
        reply = client.request(classes[SOURCE](), object_, checkError=False)
        expect("source", (reply["pwszTimeSource"], reply["ErrorCode"]), (wanted + "\0", 0))

    def refused(what, call, wanted):
        """The call ends with a fault whose status impacket knows by this name."""
        try:
            call()
        except Exception as fault:
            expect(what, wanted if wanted in str(fault) else str(fault), wanted)
            return
        sys.exit("time_client.py: %s: no fault" % what)

    def called(client, opnum, stub=b""):
        client.call(opnum, stub)
        return client.recv()

    # All calls in one session, with each result of a sync.
    client = bound()
    name(client, NO_CLOCK)
    bits(client, 0x240)
    for text, result in (FORGED, FAR, RIGHT):
        say(ahead, text)
        sync(client, 1, 2, result)
        name(client, "DC1" if result == 0 else NO_CLOCK)
    # Without waiting the result is 0, and so it is without flag 2, whatever the partner says.
    sync(client, 1, 6, 0)
    sync(client, 0, 2, 0)
    sync(client, 0, 6, 0)
    sync(client, 1, 0, 0)
    for call in (lambda: bits(client, 0x240, OBJECT), lambda: name(client, "DC1", OBJECT)):
        call()
    for opnum in (2, 4, 65535):
        refused("operation %d" % opnum, lambda: called(client, opnum), "nca_s_op_rng_error")
    bits(client, 0x240)
    client.disconnect()

    # The service's context is the third one. The source is that of the session before.
    client = bound(bogus_binds=2)
    name(client, "DC1")
    client.disconnect()

    # Another interface, and a call without a bind, are refused, and the session goes on.
    client = connected()
    refused("another interface", lambda: client.bind(uuidtup_to_bin(OTHER_SERVICE)), "abstract_syntax_not_supported")
    client.bind(uuidtup_to_bin(SERVICE))
    bits(client, 0x240)
    client.disconnect()
    client = connected()
    client.set_max_tfrag(5840)
    refused("without a bind", lambda: called(client, BITS), "nca_s_unk_if")
    client.disconnect()

    # What ends a session: an alter_context, a request in fragments, and a bind with authentication.
    client = bound()
    refused("alter_context", lambda: client.alter_ctx(uuidtup_to_bin(SERVICE)), "nca_s_proto_error")
    client.disconnect()
    client = bound()
    client.set_max_fragment_size(16)
    refused("fragments", lambda: called(client, SYNC, struct.pack("<8I", 1, 2, 0, 0, 0, 0, 0, 0)), "nca_s_proto_error")
    client.disconnect()
    client = connected()
    client.set_credentials("user", "password", "DOMAIN")
    client.set_auth_level(rpcrt.RPC_C_AUTHN_LEVEL_PKT_INTEGRITY)
    refused("authentication", lambda: client.bind(uuidtup_to_bin(SERVICE)), "nca_s_proto_error")
    client.disconnect()
    return sessions


# ---- Samba

def by_samba(port, ahead):
    try:
        from samba import NTSTATUSError
        from samba.credentials import Credentials
        from samba.dcerpc import base
        from samba.param import LoadParm
    except ImportError:
        sys.exit(77)

    nobody = Credentials()
    nobody.set_anonymous()
    parameters = LoadParm()
    # Its client gives the version of an interface as one number, the minor one in the high half.
    major, minor = SERVICE[1].split(".")
    service = (SERVICE[0], int(major) | int(minor) << 16)

    def bound(interface=service):
        return base.ClientConnection("ncacn_ip_tcp:127.0.0.1[%d]" % port, interface, parameters, nobody)

    def number(client, opnum, stub=b""):
        return struct.unpack("<I", client.request(opnum, stub))[0]

    def name(client):
        reply = client.request(SOURCE, b"")
        referent, most, first, count = struct.unpack_from("<4I", reply)
        text, status = reply[16 : 16 + 2 * count], reply[-4:]
        expect("source's counts", (referent != 0, most, first, len(reply) % 4, status), (True, count, 0, 0, bytes(4)))
        return text.decode("utf-16-le")

    # The calls, with each result of a sync.
    client = bound()
    expect("source", name(client), NO_CLOCK + "\0")
    expect("bits", number(client, BITS), 0x240)
    for text, result in (RIGHT, FAR, FORGED):
        say(ahead, text)
        expect("sync", number(client, SYNC, struct.pack("<II", 1, 2)), result)
    expect("sync that doesn't wait", number(client, SYNC, struct.pack("<II", 0, 2)), 0)
    expect("bits", number(client, BITS), 0x240)
    # Samba's client closes after the second of these faults.
    for what, opnum, stub in (("operation 2", 2, b""), ("a short stub", SYNC, bytes(7))):
        try:
            client.request(opnum, stub)
            sys.exit("time_client.py: %s: no fault" % what)
        except NTSTATUSError as fault:
            expect(what, hex(fault.args[0]), hex(FAULTS[what]))
    del client
    try:
        bound((OTHER_SERVICE[0], service[1]))
        sys.exit("time_client.py: another interface: no refusal")
    except NTSTATUSError as fault:
        expect("another interface", hex(fault.args[0]), hex(FAULTS["another interface"]))
    return 2


def main():
    calls = {"impacket": by_impacket, "samba": by_samba}[sys.argv[1]]
    print("sessions=%d" % calls(int(sys.argv[2]), sys.argv[3]))


if __name__ == "__main__":
    main()
