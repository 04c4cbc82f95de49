#!/bin/bash
# What a turn of `/member` costs: it asks a `/dc` on loopback and accepts each reply. Beside it are two loops in C: one
# that sends a request and takes the reply (the bare loop), and one that makes the other system calls of a turn too.
# What the member takes outside of the kernel above the second is what it computes: two readings, the judgement with its
# digest, records and lines. Time in the kernel depends most on what else the machine does, since both sleep until a
# datagram comes. Of several runs of each, made in turn, the best counts.
# So that it asks in each turn and not each second, its clock goes ahead 1.1 seconds at each reading (member_clock.c).
# Then the system calls of a turn, and the memory after few and after many.
# Usage: bench/member.sh [TURNS [RUNS]]; 100,000 and 5 where they aren't given.
# Needs gcc and the proved program: `rt run` in crates/w32tm. Calls are counted where strace is. It ends by itself.
. "$(dirname "$0")/../examples/prologue.sh"
find_proved w32tm
turns=${1:-100000}
runs=${2:-5}
command -v gcc >/dev/null || skip "no gcc"
# The keeper, the capture and the report are in memory where they can, so that no disk is measured.
memory=$folder
[ -w /dev/shm ] && memory=$(mktemp -d -p /dev/shm)
at_end() { rm -rf "$memory"; }
gcc -O2 -Wall -o "$folder/udp_ask" bench/udp_ask.c || exit 1
gcc -O2 -Wall -shared -fPIC -o "$folder/clock.so" bench/member_clock.c || exit 1

# Two processors, one for the member and one for the controller, where there are two and taskset.
member_on=() dc_on=()
if [ "$(nproc)" -ge 2 ] && command -v taskset >/dev/null; then
    member_on=(taskset -c $(($(nproc) - 1)))
    dc_on=(taskset -c $(($(nproc) - 2)))
fi

key=000102030405060708090a0b0c0d0e0f
printf '%s\n' Name=DC1 Role=Pdc Rid=1001 "account 1001 $key" "account 1103 $key" >"$folder/dc.conf"

# A controller that answers at least so many requests, as $controller, and the settings of its member. A second in which
# the member doesn't ask takes up a turn too.
start_dc() {
    free_port
    printf '%s\n' Name=WS1 Role=Member Rid=1103 "account 1103 $key" "computer DC1 127.0.0.1:$port S---" \
        MaxAllowedPhaseOffset=0 MinPollInterval=0 MaxPollInterval=0 >"$folder/member.conf"
    "${dc_on[@]}" "$program" "/dc:$(($1 + 500))" "/config:$folder/dc.conf" "/port:$port" >"$folder/dc" &
    controller=$!
    wait_for_port $port || die "/dc opened no port"
}

stop_dc() {
    kill "$controller"
    wait "$controller" 2>/dev/null
}

# The member's words, for so many turns, with and without a capture, and with the keeper in a folder.
member_words() {
    words=("$program" "/member:$1" "/config:$folder/member.conf" "/keeper:${3:-$memory}/keeper")
    [ "$2" = recorded ] && words+=("/capture:$memory/capture")
    return 0
}
with_clock() { env LD_PRELOAD="$folder/clock.so" "${member_on[@]}" "$@"; }

# One run of so many turns: what it took on the wall, of the processor and of that outside of the kernel, as $wall,
# $took and $outside in milliseconds.
TIMEFORMAT='%R %U %S'
run() {
    local command
    case $1 in
    ask) command=("${member_on[@]}" "$folder/udp_ask" examples/request.bin "$port" "$2") ;;
    calls) command=("${member_on[@]}" "$folder/udp_ask" examples/request.bin "$port" "$2" "$memory/capture") ;;
    member) member_words "$2" recorded && command=(with_clock "${words[@]}") ;;
    unrecorded) member_words "$2" no && command=(with_clock "${words[@]}") ;;
    on-disk) member_words "$2" recorded "$folder" && command=(with_clock "${words[@]}") ;;
    esac
    { time "${command[@]}" >"$memory/report" 2>"$folder/fault"; } 2>"$folder/time" ||
        die "$1 ended with code $?: $(cat "$folder/fault")"
    local system
    read -r wall outside system < <(tr -d . <"$folder/time")
    wall=$((10#$wall)) outside=$((10#$outside)) took=$((10#$outside + 10#$system))
    case $1 in
    ask | calls) ;;
    *)
        grep -q "^total sent=$2 moved=$2 refused=0$" "$memory/report" ||
            die "$1: not each turn moved the clock: $(tail -n 2 "$memory/report" | tr '\n' ' ')"
        ;;
    esac
}

kinds=(ask calls unrecorded member on-disk)
declare -A least_wall least_took least_outside
echo "load of the machine before: $(cut -d ' ' -f 1 /proc/loadavg), on $(nproc) processors"
for _ in $(seq "$runs"); do
    for kind in "${kinds[@]}"; do
        start_dc "$turns"
        run "$kind" "$turns"
        stop_dc
        if [ "$wall" -lt "${least_wall[$kind]:-$((wall + 1))}" ]; then least_wall[$kind]=$wall; fi
        if [ "$took" -lt "${least_took[$kind]:-$((took + 1))}" ]; then least_took[$kind]=$took; fi
        if [ "$outside" -lt "${least_outside[$kind]:-$((outside + 1))}" ]; then least_outside[$kind]=$outside; fi
    done
done
echo "load of the machine after: $(cut -d ' ' -f 1 /proc/loadavg)"
for kind in "${kinds[@]}"; do
    echo "$kind ${least_wall[$kind]} ${least_took[$kind]} ${least_outside[$kind]}"
done | awk -v n="$turns" '
    BEGIN {
        name["ask"] = "bare loop: send, receive"
        name["calls"] = "all system calls of a turn, in C"
        name["unrecorded"] = "/member without a capture"
        name["member"] = "/member"
        name["on-disk"] = "/member, its keeper on a disk"
    }
    {
        took[$1] = $3 / n * 1000
        outside[$1] = $4 / n * 1000
        printf "%-32s %6.0f turns/s, %5.2f us of the processor each, %5.2f of them outside of the kernel\n",
            name[$1], 1000 * n / $2, took[$1], outside[$1]
    }
    END {
        printf "/member: %.2f us a turn outside of the kernel more than those system calls take there\n",
            outside["member"] - outside["calls"]
        printf "/member: %.2f times the processor time of the bare loop\n", took["member"] / took["ask"]
    }'

# What 2,000 turns more ask of the kernel more.
if command -v strace >/dev/null; then
    for n in 1000 3000; do
        start_dc $n
        member_words $n recorded
        LD_PRELOAD="" strace -qq -c -o "$folder/calls$n" -E LD_PRELOAD="$folder/clock.so" "${words[@]}" >"$memory/report"
        stop_dc
    done
    awk -v what="2000 turns" -f bench/calls.awk "$folder/calls1000" "$folder/calls3000"
else
    echo "system calls: skipped, no strace"
fi

# The most memory, looked at again and again until the member has ended: its addresses as $space, which are its own
# doing, and what of them was in memory as $held. For that the kernel decides how much of a file it maps at once.
most_memory() {
    start_dc "$1"
    member_words "$1" recorded
    LD_PRELOAD="$folder/clock.so" "${words[@]}" >"$memory/report" &
    local member=$! now
    space=0 held=0
    # What has ended has no such lines, and what isn't the program yet counts as 0.
    while now=$(awk '$1 == "Name:" { name = $2 } { of[$1] = $2 }
        END { if ("VmHWM:" in of) print name == "w32tm" ? of["VmPeak:"] " " of["VmHWM:"] : "0 0" }' \
        "/proc/$member/status" 2>/dev/null) && [ -n "$now" ]; do
        [ "${now% *}" -gt $space ] && space=${now% *}
        [ "${now#* }" -gt $held ] && held=${now#* }
        sleep 0.002
    done
    wait "$member"
    stop_dc
}
most_memory 1000
fewer_space=$space fewer_held=$held
most_memory 100000
echo "addresses at most: $fewer_space kB after 1000 turns, $space kB after 100000"
echo "of them in memory: $fewer_held kB after 1000 turns, $held kB after 100000"
tail -n 2 "$memory/report"
