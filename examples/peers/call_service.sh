#!/bin/bash
# impacket's client and Samba's call `/service` on loopback: they bind, make the three calls, and what a service has to refuse.
# Its partner is a server in Python, which is right, 200 seconds ahead, or signs under another key, so each result of a sync
# comes. What they read, the service's report and its capture are compared with what docs/PROTOCOL.md says. tshark dissects the
# sessions: no PDU of the service may be malformed. Then chains of our own: `/resync` and `/query` call `/service`.
# All is in a network of its own where the machine allows it, and ends by itself after some twenty seconds.
# Usage: examples/peers/call_service.sh
# Needs python3. What needs Debian's python3-impacket, python3-samba or tshark is skipped without it.
. "$(dirname "$0")/../prologue.sh"
command -v python3 >/dev/null || skip "no python3"
find_program
in_own_network "$@"

# The interpreter that has a module: Debian's packages are for its own.
python_of() {
    python3 -c "import $1" 2>/dev/null && { echo python3; return; }
    /usr/bin/python3 -c "import $1" 2>/dev/null && echo /usr/bin/python3
}

key=000102030405060708090a0b0c0d0e0f
free_port
free_calls_port
python3 examples/peers/responder.py sign "$port" $key "$folder/ahead" &
partner=$!
wait_for_port "$port" || die "the partner didn't open its port"
cat >"$folder/member.conf" <<END_OF_TEXT
Name=WS1
Role=Member
Rid=1103
account 1103 $key
computer DC1 127.0.0.1:$port S---
MaxPosPhaseCorrection=100
AnnounceFlags=5
END_OF_TEXT

start_capture() {
    command -v tshark >/dev/null || return 1
    tshark -q -i lo -w "$folder/sessions" 2>"$folder/tshark" &
    capture=$!
    wait_until 20 test -s "$folder/sessions"
}

# The service with so many sessions, a client that makes them, and what is wanted of the sessions' ends and of the totals.
serve() {
    local name=$1 sessions=$2 ends=$3 totals=$4 python code
    python=$(python_of "$name") || { say "skipped, no $name"; return; }
    echo "== $name $($python -c "import importlib.metadata as m; print(m.version('$name'))" 2>/dev/null)"
    echo 0 >"$folder/ahead"
    "$program" "/service:$sessions" "/config:$folder/member.conf" "/keeper:$folder/keeper.$name" \
        "/capture:$folder/capture.$name" "/rpcport:$calls_port" >"$folder/report" &
    service=$!
    wait_for_calls $calls_port || fail "$name: the service opened no port"
    PYTHONDONTWRITEBYTECODE=1 $python examples/peers/time_client.py "$name" $calls_port "$folder/ahead" \
        >"$folder/called" 2>"$folder/wrong"
    code=$?
    cat "$folder/called"
    if [ $code != 0 ]; then
        fail "$name: $(tail -n 1 "$folder/wrong")"
        stop $service
        return
    fi
    [ "$(tail -n 1 "$folder/called")" = "sessions=$sessions" ] || fail "$name made other sessions"
    wait $service || fail "$name: the service ended with code $?"
    [ "$(sed -n 's/^session n=[0-9]* end=//p' "$folder/report" | tr '\n' ' ')" = "$ends" ] ||
        fail "$name: sessions ended otherwise: $(grep '^session' "$folder/report" | tr '\n' ' ')"
    grep -q "^total $totals$" "$folder/report" || fail "$name: $(grep '^total' "$folder/report"), and not $totals"
    "$program" /replay "/config:$folder/member.conf" "/capture:$folder/capture.$name" |
        cmp -s - <(grep -v '^session \|^link ' "$folder/report") || fail "$name: the capture gave another report"
    served="${served:-} $name"
    echo "the service: $(grep -c '' "$folder/report") lines, $(tail -n 2 "$folder/report" | tr '\n' ' ')"
}

start_capture && is_captured=1
serve impacket 7 "Ended Ended Ended Ended BadPdu BadPdu BadPdu " "sent=7 moved=[1-9] refused=[0-9]*"
serve samba 2 "Ended Ended " "sent=4 moved=[1-9] refused=[0-9]*"

# Our own callers.
echo "== /resync and /query"
"$program" /service:9 "/config:$folder/member.conf" "/keeper:$folder/keeper" "/rpcport:$calls_port" >"$folder/report" &
service=$!
wait_for_calls $calls_port || fail "the service opened no port"
asks() {
    local partner=$1 code=$2 printed=$3 fault=$4 got
    shift 4
    echo "$partner" >"$folder/ahead.new"
    mv -f "$folder/ahead.new" "$folder/ahead"
    "$program" "$@" "/computer:127.0.0.1:$calls_port" >"$folder/out" 2>"$folder/fault"
    got="code $?, $(cat "$folder/out" "$folder/fault" | tr '\n' ' ')"
    echo "the partner says $partner: $*: $got"
    [ "$got" = "code $code, $printed ${fault:+$fault }" ] || fail "$*: $got"
}
not="The computer did not resync because"
asks 0 0 "Local CMOS Clock" "" /query /source
asks 0 0 bits=0x00000240 "" /query /bits
asks "0 forged" 12 "$not no time data was available." "w32tm: not resynced, result 1" /resync
asks 200 12 "$not the required time change was too big." "w32tm: not resynced, result 3" /resync
asks 0 0 "The command completed successfully." "" /resync
asks 0 0 "The command completed successfully." "" /resync /rediscover
asks 200 0 "The command completed successfully." "" /resync /nowait
asks 200 0 "The command completed successfully." "" /resync /nowait /rediscover
asks 0 0 DC1 "" /query /source
wait $service || fail "the service ended with code $?"
cat "$folder/report"
stop $partner

# How many PDUs that fit a filter tshark finds. Impacket's and Samba's own PDUs aren't judged.
count_of() { tshark -r "$folder/sessions" -d "tcp.port==$calls_port,dcerpc" -Y "$1" -T fields -e frame.number 2>/dev/null | wc -l; }
if [ -n "${is_captured:-}" ]; then
    # What was captured last comes within a second.
    sleep 1
    kill -INT "$capture" && wait "$capture"
    found=
    for kind in bind=11 bind_ack=12 request=0 response=2 fault=3; do
        found+="${kind%=*}=$(count_of "dcerpc.pkt_type == ${kind#*=}") "
    done
    malformed=$(count_of "_ws.malformed && tcp.srcport == $calls_port")
    echo "tshark $(tshark -v | head -n 1 | cut -d ' ' -f 3): $found malformed=$malformed"
    [ "$malformed" = 0 ] || fail "tshark finds a malformed PDU of the service"
else
    say "the sessions aren't dissected: $(tail -n 1 "$folder/tshark" 2>/dev/null || echo "no tshark")"
fi

[ $failed = 0 ] && echo "$script: all agree${served:+ with$served}"
exit $failed
