#!/bin/bash
# What `/replay` makes of a long capture: events and megabytes per second by processor time, for captures of turns that
# send nothing, of requests with replies that are refused, and of requests with short and with extended replies that are
# accepted; beside each `cat` and `md5sum` of the same file. Then how much memory it had at most for 10,000 and for many
# events, and how many calls of the kernel it made. The captures are made here. Of five runs the fastest counts, by the
# clock on the wall and by processor time, which a busy machine changes least.
# Usage: bench/replay.sh [EVENTS [MANY]]; 100,000 and 1,000,000 where they aren't given.
# Needs python3, GNU time and the proved program: `rt run` in crates/w32tm. Calls are counted where there is strace.
. "$(dirname "$0")/../examples/prologue.sh"
find_proved w32tm
events=${1:-100000}
many=${2:-1000000}
[ -x /usr/bin/time ] || skip "no /usr/bin/time"
capture=$folder/capture
short=examples/member.conf
extended=$folder/extended.conf
sed 's/^Auth=Short/Auth=Extended/' "$short" >"$extended"

# A capture of this kind with about so many events, and the total line that its report has to end with.
write_capture() {
    python3 - "$1" "$2" "$3" <<'END'
import hashlib
import hmac
import struct
import sys

kind, events, path = sys.argv[1], int(sys.argv[2]), sys.argv[3]
BEGIN = 132_223_104_000_000_000
INTERVAL = 1025 * 10_000_000
TO_1900 = 9_435_484_800
KEY = bytes(range(16))
RID = 1103
PARTNERS = [bytes([10, 0, 0, last]) for last in (2, 1, 3)]
label = struct.pack(">I", 1) + b"sntp-ms\0" + struct.pack("<I", RID) + struct.pack(">I", 512)
DERIVED = hmac.new(KEY, label, "sha512").digest()


def stamp(ticks):
    seconds, rest = divmod(ticks, 10_000_000)
    return struct.pack(">II", (seconds - TO_1900) % 2**32, -(-rest * 2**32 // 10_000_000))


def arrive(now, partner, datagram):
    return b"\x04" + struct.pack(">q", now) + partner + struct.pack(">HH", 123, len(datagram)) + datagram


# A reply that was received and sent half a millisecond behind the request: its offset is 0.
def header(count, sent):
    half = stamp(sent + 5_000)
    return b"\x1c\x01\x0a\xe9" + bytes(8) + b"LOCL" + bytes(8) + struct.pack(">II", count, count) + half + half


def reply(count, sent):
    head = header(count, sent)
    if kind == "extended":
        return head + struct.pack("<IBBBB", RID, 0, 0, 0, 1) + hmac.new(DERIVED, head, "sha512").digest()
    sum_ = hashlib.md5(KEY + head).digest() if kind == "short" else bytes(16)
    return head + struct.pack("<I", RID) + sum_


with open(path, "wb") as out:
    out.write(b"\x01W32T" + struct.pack(">qI", BEGIN, 0))
    if kind == "idle":
        for number in range(events - 1):
            out.write(b"\x02" + struct.pack(">qI", BEGIN + number, number % 2**32))
        print("total sent=1 moved=0 refused=0")
    else:
        # Requests that come so seldom that each turn asks. One whose replies are refused is left after eight.
        requests = events // (3 if kind == "refused" else 2)
        for count in range(1, requests + 1):
            now = BEGIN + count * INTERVAL
            partner = PARTNERS[(count - 1) // 8 % 3 if kind == "refused" else 0]
            out.write(b"\x02" + struct.pack(">qI", now, count))
            out.write(arrive(now + 10_000, partner, reply(count, now)))
            if kind == "refused":
                out.write(arrive(now + 20_000, partner, bytes(10)))
        moved, refused = (0, 2 * requests) if kind == "refused" else (requests, 0)
        print(f"total sent={requests} moved={moved} refused={refused}")
END
}

config_of() { if [ "$1" = extended ]; then echo "$extended"; else echo "$short"; fi; }
replay() { "$program" /replay "/config:$(config_of "$1")" "/capture:$2"; }

# The fastest of five runs, in microseconds on the wall and in milliseconds of the processor.
TIMEFORMAT='%U %S'
fastest() {
    local least= least_took= begin wall user system took
    for _ in 1 2 3 4 5; do
        begin=${EPOCHREALTIME/./}
        read -r user system < <({ time "$@" >/dev/null; } 2>&1 | tail -n 1 | tr -d .)
        wall=$((${EPOCHREALTIME/./} - begin)) took=$((10#$user + 10#$system))
        if [ "$wall" -lt "${least:-$((wall + 1))}" ]; then least=$wall; fi
        if [ "$took" -lt "${least_took:-$((took + 1))}" ]; then least_took=$took; fi
    done
    echo "$least $least_took"
}
# The most memory that the replay of a capture has, in kilobytes. From run to run it differs by up to 250.
peak() { /usr/bin/time -f %M "$program" /replay "/config:$short" "/capture:$1" 2>&1 >/dev/null; }

# The replay of a capture of this kind, beside `cat` and `md5sum` of it.
measure() {
    local kind=$1 total last wall took cat sum
    total=$(write_capture "$kind" "$2" "$capture")
    last=$(replay "$kind" "$capture" | tail -n 1)
    [ "$last" = "$total" ] || { say "the replay of $kind ended otherwise: $last"; return 1; }
    read -r wall took < <(fastest replay "$kind" "$capture")
    read -r cat _ < <(fastest cat "$capture")
    read -r sum _ < <(fastest md5sum "$capture")
    awk -v k="$kind" -v w="$wall" -v t="$took" -v c="$cat" -v s="$sum" -v e="$2" -v b="$(stat -c %s "$capture")" 'BEGIN {
        if (t < 1) t = 1
        printf "%s: %d events, %d bytes: %d events a second of the processor, %.1f MB/s; on the wall %d; ", k, e, b, e * 1e3 / t, b / t / 1e3, e * 1e6 / w
        printf "cat takes %.3f of that, md5sum %.2f\n", c / w, s / w
    }'
}

measure idle "$many" || exit 1
for kind in refused short extended; do measure "$kind" "$events" || exit 1; done

write_capture idle 10000 "$capture.few" >/dev/null
write_capture idle "$many" "$capture" >/dev/null
echo "the most memory: $(peak "$capture.few") kB for 10,000 events, $(peak "$capture") kB for $many"
if type -p strace >/dev/null; then
    write_capture refused "$events" "$capture" >/dev/null
    strace -f -c -o "$folder/calls" -e trace=read,write "$program" /replay "/config:$short" "/capture:$capture" >/dev/null
    awk -v b="$(stat -c %s "$capture")" '$NF == "read" || $NF == "write" { printf "%s calls of %s\n", $4, $NF } END { printf "for %d bytes of a capture\n", b }' "$folder/calls"
fi
echo "the load of the machine: $(cut -d' ' -f1 /proc/loadavg)"
