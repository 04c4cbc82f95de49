#!/bin/bash
# What a PDU of a session of remote calls costs: through `PduReader` alone, and through `Session` with the reply to each
# call, both over a wire in memory. And the most memory of each, for so many sessions and for ten times as many. A session
# is a bind and 9,000 requests (sync, source and bits in turn), 240,072 bytes, and has a wire of its own; what it costs to make
# the wire is taken off. Of five runs the fastest counts, by processor time, so that a busy machine says nearly the same.
# Usage: bench/calls.sh [SESSIONS]; 100 where it isn't given.
# Needs GNU time and the built program: `rt run` in crates/bench_calls.
. "$(dirname "$0")/../examples/prologue.sh"
find_proved bench_calls
sessions=${1:-100}
pdus=9001
bytes=240072
answers=324056
[ -x /usr/bin/time ] || skip "no /usr/bin/time"

# The processor's time of the fastest of five runs, in seconds.
seconds() {
    local TIMEFORMAT='%U %S' least='' took
    for _ in 1 2 3 4 5; do
        took=$({ time "$program" "$1" "$sessions" >/dev/null; } 2>&1 | awk 'END { print $1 + $2 }')
        least=$(awk -v a="$took" -v b="${least:-$took}" 'BEGIN { print a < b ? a : b }')
    done
    echo "$least"
}

# The most memory that a run has, in kilobytes.
peak() { /usr/bin/time -f %M "$program" "$1" "$2" 2>&1 >/dev/null; }

# What the program has to say of this work.
ends_well() {
    local said
    said=$("$program" "$1" "$sessions") || die "a run failed"
    [ "$said" = "sessions=$sessions pdus=$2 calls=$3 written=$4" ] || die "the program said $said"
}

ends_well wires 0 0 0
ends_well reads $((sessions * pdus)) 0 0
ends_well serves 0 $((sessions * (pdus - 1))) $((sessions * answers))
wires=$(seconds wires)
reads=$(seconds reads)
serves=$(seconds serves)
awk -v w="$wires" -v r="$reads" -v s="$serves" -v n="$sessions" -v pdus=$pdus -v bytes=$bytes \
    -v load="$(cut -d' ' -f1 /proc/loadavg)" 'BEGIN {
    r -= w; s -= w
    if (r <= 0 || s <= 0) { print "too few sessions to measure"; exit }
    printf "PduReader alone:    %d PDUs a second, %.1f MB/s\n", n * pdus / r, n * bytes / r / 1e6
    printf "Session with reply: %d PDUs a second, %.1f MB/s, %.2f times the time\n",
        n * pdus / s, n * bytes / s / 1e6, s / r
    printf "the load of the machine: %s\n", load
}'
for work in reads serves; do
    echo "the most memory, $work: $(peak $work "$sessions") kB, and $(peak $work $((10 * sessions))) kB for ten times as many"
done
