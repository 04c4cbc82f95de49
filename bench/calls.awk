# Of two summaries of strace -c, of few and of many runs of one thing: the calls that the second has more.
# Usage: awk -v what="2000 turns" -f bench/calls.awk FEWER MORE
NF < 5 || $4 !~ /^[0-9]+$/ || $NF == "total" { next }
FNR == NR { calls[$NF] -= $4; next }
{ calls[$NF] += $4 }
END {
    printf "system calls of %s:", what
    for (name in calls) if (calls[name] != 0) printf " %s %d", name, calls[name]
    print ""
}
