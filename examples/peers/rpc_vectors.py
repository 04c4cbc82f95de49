#!/usr/bin/env python3
"""Sessions of the time service by impacket, beside the bytes in crates/test_calls/src/vectors.rt.

rpc_vectors.py
    impacket's client makes its calls over the answers that stand there, and impacket's server answers the requests. Prints
    the bytes that impacket wrote. Ends with 1 where a constant there has other bytes, or where impacket reads something else.

Needs impacket, Debian's python3-impacket; without it nothing is compared.
"""
import os
import re
import struct
import sys

try:
    from impacket.dcerpc.v5 import rpcrt
    from impacket.dcerpc.v5.dtypes import LPWSTR, ULONG
    from impacket.dcerpc.v5.ndr import NDRCALL
    from impacket.uuid import uuidtup_to_bin
except ImportError:
    print("rpc_vectors.py: skipped, no impacket")
    sys.exit(0)

TESTS = os.path.join(os.path.dirname(__file__), "../../crates/test_calls/src/vectors.rt")
SERVICE = ("8fb6d884-2388-11d0-8c35-00c04fda2795", "4.1")
OTHER_SERVICE = ("8fb6d884-2388-11d0-8c35-00c04fda2796", "4.1")
OBJECT = b"\x33" * 16
REFERENT = 0xE229
NAME = "DC10\0"


class W32TimeSync(NDRCALL):
    opnum = 0
    structure = (("ulWait", ULONG), ("ulFlags", ULONG))


class W32TimeSyncResponse(NDRCALL):
    structure = (("ErrorCode", ULONG),)


class W32TimeGetNetlogonServiceBits(NDRCALL):
    opnum = 1
    structure = ()


class W32TimeGetNetlogonServiceBitsResponse(NDRCALL):
    structure = (("ErrorCode", ULONG),)


class W32TimeQuerySource(NDRCALL):
    opnum = 3
    structure = ()


class W32TimeQuerySourceResponse(NDRCALL):
    structure = (("pwszTimeSource", LPWSTR), ("ErrorCode", ULONG))


class Answers:
    """What impacket's client speaks to: it gives these bytes, and keeps what is sent."""

    def __init__(self, bytes_):
        self.left, self.sent = bytes_, b""

    def send(self, data, **_):
        self.sent += bytes(data)

    def recv(self, _=0, count=0):
        count = count or struct.unpack_from("<H", self.left, 8)[0]
        given, self.left = self.left[:count], self.left[count:]
        return given

    def doesSupportNTLMv2(self):
        return True


class Requests:
    """What impacket's server speaks to: the same with the words of a socket."""

    def __init__(self, bytes_):
        self.left, self.sent = bytes_, b""

    def recv(self, count):
        given, self.left = self.left[:count], self.left[count:]
        return given

    def send(self, data):
        self.sent += bytes(data)


def constant(name):
    """The bytes of a constant of the tests."""
    with open(TESTS, encoding="utf-8") as file:
        text = re.search(r'^const %s:.*?=\s*b"(.*?)";' % name, file.read(), re.S | re.M).group(1)
    return bytes.fromhex("".join(re.findall(r"\\x(..)", text)))


def expect(what, found, wanted):
    if found != wanted:
        sys.exit("rpc_vectors.py: %s: %r, not %r" % (what, found, wanted))


def expect_fault(what, call, name):
    """The call ends with a fault whose status impacket knows by this name."""
    try:
        call()
    except rpcrt.DCERPCException as fault:
        if name in str(fault):
            return
        sys.exit("rpc_vectors.py: %s: %s, not %s" % (what, fault, name))
    sys.exit("rpc_vectors.py: %s: no fault" % what)


# What impacket's client does.

def sync(client, object_=None):
    request = W32TimeSync()
    request["ulWait"], request["ulFlags"] = 1, 2
    expect("sync", client.request(request, object_, checkError=False)["ErrorCode"], 0)


def all_calls(client, object_):
    sync(client, object_)
    bits = client.request(W32TimeGetNetlogonServiceBits(), object_, checkError=False)
    expect("bits", bits["ErrorCode"], 0x240)
    source = client.request(W32TimeQuerySource(), object_, checkError=False)
    expect("source", (source["pwszTimeSource"], source["ErrorCode"]), (NAME, 0))


def calls(client):
    """Each call, without an object UUID and with one, and an operation that isn't served."""
    client.bind(uuidtup_to_bin(SERVICE))
    all_calls(client, None)
    all_calls(client, OBJECT)
    client.call(2, b"")
    expect_fault("operation 2", client.recv, "nca_s_op_rng_error")


def third_context(client):
    """A bind whose third context is the service's, and a call in it."""
    client.bind(uuidtup_to_bin(SERVICE), bogus_binds=2)
    sync(client)


def altered(client):
    """An alter_context after a bind."""
    service = uuidtup_to_bin(SERVICE)
    client.bind(service)
    expect_fault("alter_context", lambda: client.alter_ctx(service), "nca_s_proto_error")


def signed(client):
    """A bind that begins NTLM."""
    client.set_credentials("user", "password")
    expect_fault("NTLM", lambda: client.bind(uuidtup_to_bin(SERVICE)), "nca_s_proto_error")


def client_bytes(work, answers):
    """What impacket's client sends while it does this work over these answers. It reads all of them."""
    peer = Answers(constant(answers))
    work(rpcrt.DCERPC_v5(peer))
    expect("bytes left of " + answers, peer.left, b"")
    return peer.sent


# What impacket's server does.

def sync_answer(stub):
    request = W32TimeSync(stub)
    expect("our sync", (request["ulWait"], request["ulFlags"]), (1, 2))
    response = W32TimeSyncResponse()
    response["ErrorCode"] = 3
    return response.getData()


def source_answer(stub):
    expect("our source", stub, b"")
    response = W32TimeQuerySourceResponse()
    response["pwszTimeSource"], response["ErrorCode"] = NAME, 0
    # impacket takes a random one.
    response.fields["pwszTimeSource"].fields["ReferentID"] = REFERENT
    return response.getData()


def server_bytes(requests, service, address):
    """What impacket's server answers to these requests. It serves sync and source, and says that it is reached there."""
    server = rpcrt.DCERPCServer()
    server._clientSock = Requests(requests)
    server.addCallbacks(service, address, {0: sync_answer, 3: source_answer})
    while (data := server.recv()) is not None:
        answer = server.processRequest(data)
        if answer is not None:
            server.send(answer)
    return server._clientSock.sent


def written():
    """The name of each constant, and the bytes that impacket writes."""
    # impacket takes random interfaces for its first contexts.
    rpcrt.generate = lambda: b"\x11" * 16
    yield "CALLS", client_bytes(calls, "CALLS_ANSWERED")
    yield "THIRD_CONTEXT", client_bytes(third_context, "THIRD_CONTEXT_ANSWERED")
    yield "ALTERED", client_bytes(altered, "ALTERED_ANSWERED")
    yield "SIGNED", client_bytes(signed, "SIGNED_ANSWERED")
    requests = constant("REQUESTS")
    bind = requests[:72]
    yield "REPLIES", server_bytes(requests, SERVICE, "\\PIPE\\W32TIME")
    yield "PADDED_ACK", server_bytes(bind, SERVICE, "135")
    # Its server can't log an interface that it doesn't serve: a fault of its line for the log.
    rpcrt.bin_to_uuidtup = str
    yield "REJECTED_ACK", server_bytes(bind, OTHER_SERVICE, "135")


def main():
    others = []
    for name, bytes_ in written():
        print(name, len(bytes_), bytes_.hex())
        if bytes_ != constant(name):
            others.append(name)
    if others:
        sys.exit("rpc_vectors.py: vectors.rt has other bytes: " + " ".join(others))
    print("rpc_vectors.py: impacket writes and reads the same")


if __name__ == "__main__":
    main()
