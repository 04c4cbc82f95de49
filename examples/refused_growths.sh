#!/bin/bash
# Refuses each allocation of a command in turn: with `rt try --fail-alloc N` the Nth one fails. The command has to end with
# code 15, and "w32tm: no memory", until N is past its last allocation; then it ends with code 0. Each N is a build of its
# own, of half a minute on an idle machine. The command is `/replay` of examples/realistic.capture, a small `/simulate`, or
# one turn of `/member` under the same settings.
# Usage: examples/refused_growths.sh [simulate|member] [FIRST [LAST]]; all from 1 where they aren't given
# Needs the Rattle kit (rt).
. "$(dirname "$0")/prologue.sh"
command -v rt >/dev/null || skip "no rt"
words=(/replay "/config:$PWD/examples/realistic.conf" "/capture:$PWD/examples/realistic.capture")
case "${1:-}" in
    simulate)
        words=(/simulate:1:8)
        shift
        ;;
    member)
        words=(/member:1 "/config:$PWD/examples/realistic.conf" "/keeper:$folder/keeper")
        shift
        ;;
esac
number=${1:-1}
refused=0
while [ "$number" -le "${2:-10000}" ]; do
    (cd crates/w32tm && rt try --fail-alloc "$number" -- "${words[@]}") >"$folder/out" 2>"$folder/fault"
    code=$?
    said="code $code, $(grep -m 1 '^w32tm:' "$folder/fault" || echo 'no line'), $(grep -c '' "$folder/out") lines"
    echo "allocation $number: $said"
    [ $code = 0 ] && break
    [ "$said" = "code 15, w32tm: no memory, 0 lines" ] || die "that isn't NoMemory: $(tail -n 1 "$folder/fault")"
    refused=$((refused + 1)) number=$((number + 1))
done
echo "$script: $refused allocations refused, each answered by NoMemory"
