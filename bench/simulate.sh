#!/bin/bash
# What an operation of the simulated world costs: time of the processor and most memory of whole runs from one seed, of
# 1,000, 10,000 and so on as far as 100,000 operations. The summaries and the sizes of the captures are compared with
# those of a program in Python that was written from the rules of the world. Of five runs the fastest counts.
# Usage: bench/simulate.sh
# Needs GNU time and the built program: `rt run` in crates/bench_world.
. "$(dirname "$0")/../examples/prologue.sh"
find_proved bench_world
seed=4294967295
[ -x /usr/bin/time ] || skip "no /usr/bin/time"

# The processor's time of the fastest of five runs, in seconds.
seconds() {
    local TIMEFORMAT='%U %S' least='' took
    for _ in 1 2 3 4 5; do
        took=$({ time "$program" "$seed" "$1" >/dev/null; } 2>&1 | awk 'END { print $1 + $2 }')
        least=$(awk -v a="$took" -v b="${least:-$took}" 'BEGIN { print a < b ? a : b }')
    done
    echo "$least"
}

# The most memory that a run has, in kilobytes.
peak() { /usr/bin/time -f %M "$program" "$seed" "$1" 2>&1 >/dev/null; }

# A run of so many operations has to say this.
says() {
    local said
    said=$("$program" "$seed" "$1") || die "a run failed"
    [ "$said" = "$(printf 'ops=%s skipped=%s\nsent=%s moved=%s refused=%s\nslack=1\ncapture=%s' "$@")" ] ||
        die "the program said $said"
}

says 1000 6 128 2 224 21774
says 10000 6 1297 11 2281 221812
says 100000 6 12540 148 23178 2240870

for n in 1000 10000 100000; do
    awk -v n="$n" -v s="$(seconds "$n")" -v m="$(peak "$n")" \
        'BEGIN { printf "%d operations: %.3f s, %.2f us each, %d kB\n", n, s, s * 1e6 / n, m }'
done
