#!/bin/bash
# What Wireshark's dissector reads in requests and in the replies that `/sign` writes, field by field beside the lines of
# `/show`.
# Usage: examples/peers/dissect.sh
# Needs Debian's tshark, which brings text2pcap; without these two nothing is compared.
. "$(dirname "$0")/../prologue.sh"
word=/sign:1103:00000000000000000000000000000000
for tool in tshark text2pcap; do command -v $tool >/dev/null || skip "no $tool"; done
find_program

# The number of hexadecimal digits that stand for a signed number.
signed() {
    local bits=$((4 * ${#1})) number=$((16#$1))
    echo $((number >= 1 << (bits - 1) ? number - (1 << bits) : number))
}

# The bytes of hexadecimal digits, the last one first.
reversed() { echo "${1:6:2}${1:4:2}${1:2:2}${1:0:2}"; }

# A field of the dissected message: its bytes as digits, or what the dissector shows of it.
bytes_of() { sed -n "s/.*name=\"ntp\.$1\" .* value=\"\([0-9a-f]*\)\".*/\1/p" "$folder/pdml" | head -n 1; }
shown_of() { sed -n "s/.*name=\"ntp\.$1\" .* show=\"\([^\"]*\)\".*/\1/p" "$folder/pdml" | head -n 1; }

compare() {
    local name=$1 ours theirs=$3
    ours=$(tr ' ' '\n' <"$folder/lines" | sed -n "s/^$2=//p")
    if [ "$ours" != "$theirs" ]; then
        say "$name: $2: /show says '$ours', tshark '$theirs'"
        failed=1
    fi
    compared=$((compared + 1))
}

# One message: the lines of `/show` beside the fields that the dissector finds.
dissect() {
    local name=$1 file=$2 mac
    compared=0
    od -Ax -tx1 -v "$file" >"$folder/dump"
    text2pcap -q -u 40000,123 "$folder/dump" "$folder/pcap" 2>/dev/null || exit 1
    tshark -r "$folder/pcap" -T pdml 2>/dev/null >"$folder/pdml"
    "$program" "/show:$(od -An -tx1 -v "$file" | tr -d ' \n')" >"$folder/lines" || failed=1
    compare "$name" leap "$(shown_of flags.li)"
    compare "$name" version "$(shown_of flags.vn)"
    compare "$name" mode "$(shown_of flags.mode)"
    compare "$name" stratum "$(shown_of stratum)"
    compare "$name" poll "$(signed "$(bytes_of ppoll)")"
    compare "$name" precision "$(signed "$(bytes_of precision)")"
    compare "$name" rootdelay "$(signed "$(bytes_of rootdelay)")"
    compare "$name" rootdispersion "$((16#$(bytes_of rootdispersion)))"
    compare "$name" refid "$(bytes_of refid)"
    compare "$name" reference "$(bytes_of reftime)"
    compare "$name" originate "$(bytes_of org)"
    compare "$name" receive "$(bytes_of rec)"
    compare "$name" transmit "$(bytes_of xmt)"
    mac=$(bytes_of mac)
    case ${#mac} in
    0) compare "$name" tail plain ;;
    32)
        compare "$name" keyid "$(reversed "$(bytes_of keyid)")"
        compare "$name" checksum "$mac"
        ;;
    *)
        # The dissector counts the four single bytes in front of an extended checksum to it.
        compare "$name" rid "$((16#$(reversed "$(bytes_of keyid)")))"
        compare "$name" reserved "$((16#${mac:0:2}))"
        compare "$name" flags "$((16#${mac:2:2}))"
        compare "$name" hints "$((16#${mac:4:2}))"
        compare "$name" hash "$((16#${mac:6:2}))"
        compare "$name" checksum "${mac:8}"
        ;;
    esac
    echo "$name: $(stat -c %s "$file") bytes, $compared fields compared"
}

# A short, a plain and an extended request, and the reply to each.
cp examples/request.bin "$folder/short"
head -c 48 examples/request.bin >"$folder/plain"
{
    head -c 48 examples/request.bin
    printf '\x4f\x04\x00\x00\x00\x00\x01\x00'
    head -c 64 /dev/zero
} >"$folder/extended"
for kind in short plain extended; do
    dissect "$kind request" "$folder/$kind"
    "$program" "$word" <"$folder/$kind" >"$folder/reply" || failed=1
    dissect "$kind reply" "$folder/reply"
done
[ $failed = 0 ] && echo "$script: all fields agree with $(tshark --version 2>/dev/null | head -n 1)"
exit $failed
