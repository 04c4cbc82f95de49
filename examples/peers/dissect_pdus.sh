#!/bin/bash
# What Wireshark's dissector reads in the PDUs of the constant SESSION of crates/rpc_pdu/src/tests.rt, which a test there
# shows to be what `write_pdu` writes, beside what that test and its neighbours expect of the reader.
# Usage: examples/peers/dissect_pdus.sh
# Needs Debian's tshark, which brings text2pcap; without these two nothing is compared.
. "$(dirname "$0")/../prologue.sh"
for tool in tshark text2pcap; do command -v $tool >/dev/null || skip "no $tool"; done

# The bytes of the constant, two digits each, on one line.
bytes=$(sed -n '/^const SESSION/,/";$/p' crates/rpc_pdu/src/tests.rt | grep -o '\\x[0-9A-F][0-9A-F]' | tr -d '\\x\n')
for len in 160 32 28 52 32; do
    echo "000000 $(echo "${bytes:0:2*len}" | sed 's/../& /g')"
    bytes=${bytes:2*len}
done >"$folder/session"
text2pcap -q -T 50000,49152 "$folder/session" "$folder/session.pcap" 2>/dev/null || exit 1

# Type, flags, length, authentication, call, number of contexts, contexts, opnum, status, interfaces and syntaxes. To the
# response of call 2 the dissector adds the opnum of that call's request.
tshark -r "$folder/session.pcap" -d tcp.port==49152,dcerpc -T fields -E separator=' ' \
    -e dcerpc.pkt_type -e dcerpc.cn_flags -e dcerpc.cn_frag_len -e dcerpc.cn_auth_len -e dcerpc.cn_call_id \
    -e dcerpc.cn_num_ctx_items -e dcerpc.cn_ctx_id -e dcerpc.opnum -e dcerpc.cn_status \
    -e dcerpc.cn_bind_to_uuid -e dcerpc.cn_bind_trans_id 2>/dev/null | tr -s ' ' | sed 's/ $//' >"$folder/theirs"
service=8fb6d884-2388-11d0-8c35-00c04fda2795
ndr=8a885d04-1ceb-11c9-9fe8-08002b104860
cat >"$folder/ours" <<END
11 0x03 160 0 1 3 0,1,2 $service,$service,$service $ndr,11111111-1111-1111-1111-111111111111,22222222-2222-2222-2222-222222222222
0 0x03 32 0 2 0 0
2 0x03 28 0 2 0 0
2 0x03 52 0 3 0
3 0x03 32 0 5 0 0x1c010002
END
diff "$folder/ours" "$folder/theirs" && echo "$script: tshark reads the same"
