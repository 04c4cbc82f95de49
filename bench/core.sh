#!/bin/bash
# What an event costs a member: requests, replies of each kind, stray and forged ones, beside the digest alone.
# Usage: bench/core.sh [ROUNDS], of 4,000 requests each; 500 where it isn't given.
# Needs the built program: `rt run` in crates/bench_core.
. "$(dirname "$0")/../examples/prologue.sh"
find_proved bench_core
rounds=${1:-500}
requests=4000

# The processor's time of a run of so many rounds, in seconds.
seconds() {
    local TIMEFORMAT=%U
    { time "$program" "$1" "$2" >/dev/null; } 2>&1
}

# Nanoseconds for a request, with its reply: a run of all rounds, less a run of none.
nanoseconds() {
    local none all
    none=$(seconds "$1" 0)
    all=$(seconds "$1" "$rounds")
    awk -v a="$all" -v n="$none" -v k=$((rounds * requests)) 'BEGIN { printf "%.1f", (a - n) * 1e9 / k }'
}

declare -A cost
for work in ticks short extended stray forged md5 hmac derived; do
    "$program" "$work" 1 >/dev/null || die "a run failed"
    cost[$work]=$(nanoseconds "$work")
done
awk -v t="${cost[ticks]}" -v s="${cost[short]}" -v e="${cost[extended]}" -v l="${cost[stray]}" -v f="${cost[forged]}" \
    -v m="${cost[md5]}" -v h="${cost[hmac]}" -v d="${cost[derived]}" 'BEGIN {
    printf "a request that is sent: %.0f ns, %.0f events a second\n", t, 1e9 / t
    printf "a short reply that is accepted: %.0f ns, %.2f times its digest (%.0f ns)\n", s - t, (s - t) / m, m
    printf "an extended reply that is accepted: %.0f ns, %.2f times its digest (%.0f ns)\n", e - t, (e - t) / h, h
    printf "that digest with its key derived anew: %.0f ns, so an accepted reply takes %.2f of it\n", d, (e - t) / d
    printf "a short reply under another key: %.0f ns, %.2f times its digest\n", f - t, (f - t) / m
    printf "a reply to no request: %.0f ns, %.2f times a digest\n", l - t, (l - t) / m
}'
