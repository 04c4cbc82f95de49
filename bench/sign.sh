#!/bin/bash
# Wall time of 1,000 runs of `/sign` on the sample request beside 1,000 runs of `true`, and their ratio.
# Usage: bench/sign.sh
# Needs the proved program: `rt run` in crates/w32tm.
. "$(dirname "$0")/../examples/prologue.sh"
find_proved w32tm
request=examples/request.bin
word=/sign:1103:00000000000000000000000000000000
runs=1000

microseconds() {
    local begin end
    begin=$(date +%s%N)
    "$@" || die "a run failed"
    end=$(date +%s%N)
    echo $(((end - begin) / 1000))
}
signs() { for _ in $(seq $runs); do "$program" "$word" <"$request" >/dev/null || return 1; done; }
trues() { for _ in $(seq $runs); do /bin/true <"$request" >/dev/null || return 1; done; }

sign=$(microseconds signs) || exit 1
true=$(microseconds trues) || exit 1
awk -v s="$sign" -v t="$true" -v n="$runs" 'BEGIN {
    printf "%d runs of /sign: %.3f s\n%d runs of true:  %.3f s\nratio: %.2f\n", n, s / 1e6, n, t / 1e6, s / t
}'
