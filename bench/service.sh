#!/bin/bash
# What `/service` makes of a load of remote calls on loopback, beside a loop in C that sends back what comes: sessions a
# second, each with a bind and one call, and the processor's time of a call. The calls are the bits, a sync that doesn't wait,
# and a sync that waits for a `/dc` on loopback. Of each kind several runs are made in turn, and the best counts.
# Then the system calls of a call, and the memory after 100 sessions and after 10,000.
# Usage: bench/service.sh [SESSIONS [RUNS]]; 5,000 and 5 where they aren't given.
# Needs gcc and the proved program: `rt run` in crates/w32tm. Calls are counted where strace is. It ends by itself.
. "$(dirname "$0")/../examples/prologue.sh"
find_proved w32tm
sessions=${1:-5000}
runs=${2:-5}
# So many calls in a session where the processor's time of a call is looked at.
calls=9000
command -v gcc >/dev/null || skip "no gcc"
for tool in calls_load tcp_echo; do
    gcc -O2 -Wall -o "$folder/$tool" "bench/$tool.c" || exit 1
done
# The keeper, the capture and the report are in memory where they can, so that no disk is measured.
memory=$folder
[ -w /dev/shm ] && memory=$(mktemp -d -p /dev/shm)
at_end() { rm -rf "$memory"; }

# Two processors, one for the service and one for the load, where there are two and taskset.
service_on=() load_on=()
if [ "$(nproc)" -ge 2 ] && command -v taskset >/dev/null; then
    service_on=(taskset -c $(($(nproc) - 1)))
    load_on=(taskset -c $(($(nproc) - 2)))
fi

key=000102030405060708090a0b0c0d0e0f
printf '%s\n' Name=DC1 Role=Pdc Rid=1001 "account 1001 $key" "account 1103 $key" >"$folder/dc.conf"
free_port
"$program" /dc:1000000 "/config:$folder/dc.conf" "/port:$port" >"$folder/dc" &
wait_for_port "$port" || die "/dc opened no port"
printf '%s\n' Name=WS1 Role=Member Rid=1103 "account 1103 $key" "computer DC1 127.0.0.1:$port S---" >"$folder/member.conf"

# Starts a server of so many sessions on $calls_port, as $server.
serve() {
    local words=("$program" "/service:$2" "/config:$folder/member.conf" "/keeper:$memory/keeper")
    free_calls_port
    words+=("/capture:$memory/capture" "/rpcport:$calls_port")
    case $1 in
    echo) "${service_on[@]}" "$folder/tcp_echo" "$calls_port" "$2" & ;;
    strace) strace -qq -c -o "$folder/calls" "${words[@]}" >"$memory/report" & ;;
    *) "${service_on[@]}" "${words[@]}" >"$memory/report" & ;;
    esac
    server=$!
    wait_for_calls "$calls_port" || die "$1 opened no port"
}

# One run: a server, so many sessions with so many calls each and one more, and the three numbers of calls_load as $wall, $took
# and $held.
run() {
    serve "$1" $(($2 + 1))
    "${load_on[@]}" "$folder/calls_load" "$calls_port" "$server" $(($2 + 1)) "$3" "${4:-$1}" >"$folder/numbers" || exit 1
    read -r wall took held <"$folder/numbers"
    wait "$server" || die "$1 ended with code $?"
}

declare -A least_wall least_took
keep_least() {
    if [ "$wall" -lt "${least_wall[$1]:-$((wall + 1))}" ]; then least_wall[$1]=$wall; fi
    if [ "$took" -lt "${least_took[$1]:-$((took + 1))}" ]; then least_took[$1]=$took; fi
}
echo "load of the machine before: $(cut -d ' ' -f 1 /proc/loadavg), on $(nproc) processors"
for _ in $(seq "$runs"); do
    for kind in echo bits; do
        run $kind "$sessions" 1
        keep_least $kind.sessions
    done
    for kind in echo bits sync wait; do
        run $kind 1 $calls
        keep_least $kind.calls
    done
done
for kind in echo bits; do
    awk -v kind=$kind -v n="$sessions" -v w="${least_wall[$kind.sessions]}" -v t="${least_took[$kind.sessions]}" 'BEGIN {
        printf "%-5s %6.0f sessions/s with one call each, %6.2f us of the processor a session\n", kind, 1e9 * n / w, t / n / 1000
    }'
done
for kind in echo bits sync wait; do
    awk -v kind=$kind -v n=$calls -v w="${least_wall[$kind.calls]}" -v t="${least_took[$kind.calls]}" \
        -v e="${least_took[echo.calls]}" 'BEGIN {
        printf "%-5s %6.0f calls/s in one session, %6.2f us of the processor a call", kind, 1e9 * n / w, t / n / 1000
        if (kind != "echo") printf ", %.2f times the echo", t / e
        print ""
    }'
done

# What 2,000 calls of each kind more ask of the kernel more.
if command -v strace >/dev/null; then
    for kind in bits sync wait; do
        run strace 1 1000 $kind
        cp "$folder/calls" "$folder/fewer"
        run strace 1 3000 $kind
        echo -n "$kind: "
        awk -v what="2000 calls" -f bench/calls.awk "$folder/fewer" "$folder/calls"
    done
else
    echo "system calls: skipped, no strace"
fi

run bits 99 1
few=$held
run bits 9999 1
echo "memory at most: $few kB after 100 sessions, $held kB after 10000"
tail -n 2 "$memory/report"
