#!/bin/bash
# Signatures per second of both kinds through the public `sign`, beside OpenSSL's MD5 and SHA-512 in the same run.
#
# A short signature is one MD5 of 64 bytes, two blocks of 64 with the padding. An extended one is four SHA-512 of 148 to
# 192 bytes, eight blocks of 128 with the padding. There are two ratios: to as many hashes of such inputs through
# OpenSSL's EVP interface, which gets 64 and 176 bytes at a time; and to the blocks that it hashes where it gets 16384
# bytes at a time. All is by processor time, so that a busy machine says the same.
# Usage: bench/digests.sh
# Needs OpenSSL's program and the built one: `rt run` in crates/bench_digests.
. "$(dirname "$0")/../examples/prologue.sh"
find_proved bench_digests
short_count=4000000
extended_count=400000
command -v openssl >/dev/null || skip "no openssl"

# Signatures per second.
signatures() {
    local seconds
    seconds=$({ TIMEFORMAT=%U && time "$program" "$1" "$2" >/dev/null; } 2>&1) || die "a run failed"
    awk -v count="$2" -v seconds="$seconds" 'BEGIN { printf "%d\n", count / seconds }'
}
# Bytes hashed per second, so many at a time: OpenSSL prints thousands.
rate() {
    openssl speed -seconds 2 -bytes "$2" -evp "$1" 2>/dev/null | awk 'END { sub("k$", "", $2); printf "%d\n", $2 * 1000 }'
}

short=$(signatures short $short_count) || exit 1
md5=$(rate md5 64)
md5_long=$(rate md5 16384)
extended=$(signatures extended $extended_count) || exit 1
sha512=$(rate sha512 176)
sha512_long=$(rate sha512 16384)
awk -v s="$short" -v m="$md5" -v ml="$md5_long" -v e="$extended" -v h="$sha512" -v hl="$sha512_long" 'BEGIN {
    printf "short:    %d signatures/s; to OpenSSL MD5 of 64 bytes (%d/s): %.2f; to its blocks (%d/s): %.2f\n",
        s, m / 64, s / (m / 64), ml / 64, 2 * s / (ml / 64)
    printf "extended: %d signatures/s; to OpenSSL SHA-512 of 176 bytes (%d/s): %.2f; to its blocks (%d/s): %.2f\n",
        e, h / 176, 4 * e / (h / 176), hl / 128, 8 * e / (hl / 128)
}'
