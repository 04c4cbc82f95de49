#!/bin/bash
# `/resync` and `/query` ask services on impacket's server on loopback, and then listeners that are none; all ends by
# itself, after some 40 seconds. The exit code, what is printed and the line on standard error are compared with what
# docs/PROTOCOL.md says, and the calls that impacket read with what the words ask for. tshark dissects the sessions with
# impacket: no PDU may be malformed.
# Usage: examples/peers/ask_service.sh
# Needs python3. What needs Debian's python3-impacket or tshark is skipped without it.
. "$(dirname "$0")/../prologue.sh"
command -v python3 >/dev/null || skip "no python3"
find_program
in_own_network "$@"
# The interpreter that has impacket: Debian's package is for its own.
python=python3
$python -c "import impacket" 2>/dev/null || [ ! -x /usr/bin/python3 ] || python=/usr/bin/python3

# The port of a service or listener.
port_of() { sed -n "s/^$1 //p" "$folder/ports"; }

# Starts the services or the listeners, and waits for their ports.
start_peers() {
    rm -f "$folder/ports"
    PYTHONDONTWRITEBYTECODE=1 $python examples/peers/time_service.py "$1" "$folder/ports" "$folder/calls" \
        2>"$folder/peers" &
    peers=$!
    wait_until 10 test -e "$folder/ports"
}

# Compares one run: the codes with which it may end, what it prints, its line on standard error, the peer, and the words.
asks() {
    local codes=$1 printed=${2:+$2$'\n'} fault=${3:+w32tm: $3$'\n'} peer=$4 code
    shift 4
    "$program" "$@" "/computer:127.0.0.1:$(port_of "$peer")" >"$folder/$peer.out" 2>"$folder/$peer.fault" </dev/null
    code=$?
    echo "$peer: $*: code $code, $(cat "$folder/$peer.out" "$folder/$peer.fault" | tr '\n' ' ')"
    [[ " $codes " = *" $code "* ]] || fail "$peer: $*: code $code, and not $codes"
    printf '%s' "$printed" | cmp -s - "$folder/$peer.out" || fail "$peer: $*: it printed something else"
    [ "$fault" = $'w32tm: any\n' ] && return
    printf '%s' "$fault" | cmp -s - "$folder/$peer.fault" || fail "$peer: $*: standard error has another line"
}

# The same, and the call that the peer has to read.
is_called() {
    local call=$1
    shift
    echo "$4 $call" >>"$folder/wanted"
    asks "$@"
}

ask_impacket() {
    local well="The command completed successfully." not="The computer did not resync" long
    long=$(printf 'n%.0s' {1..63})
    is_called "sync wait=1 flags=2" 0 "$well" "" well /resync
    is_called "sync wait=0 flags=2" 0 "$well" "" well /resync /nowait
    is_called "sync wait=1 flags=6" 0 "$well" "" well /resync /rediscover
    is_called "sync wait=0 flags=6" 0 "$well" "" well /resync /rediscover /nowait
    is_called "source stub=0" 0 DC1 "" well /query /source
    is_called "bits stub=0" 0 bits=0x00000240 "" well /query /bits
    is_called "sync wait=1 flags=2" 12 "$not because no time data was available." "not resynced, result 1" no_time /resync
    is_called "source stub=0" 0 "Local CMOS Clock" "" no_time /query /source
    is_called "bits stub=0" 0 bits=0x00000000 "" no_time /query /bits
    is_called "sync wait=1 flags=2" 12 "$not because the required time change was too big." "not resynced, result 3" \
        too_big /resync
    is_called "source stub=0" 0 "$long" "" too_big /query /source
    is_called "bits stub=0" 0 bits=0xffffffff "" too_big /query /bits
    is_called "sync wait=1 flags=2" 12 "$not. Result 4294967295." "not resynced, result 4294967295" other_result /resync
    # A name of 64 characters, and one that isn't ASCII, are no reply.
    is_called "source stub=0" 13 "" "peer refused" other_result /query /source
    is_called "bits stub=0" 0 bits=0x80000000 "" other_result /query /bits
    is_called "sync wait=1 flags=2" 12 "$not. Result 2." "not resynced, result 2" no_ascii /resync
    is_called "source stub=0" 13 "" "peer refused" no_ascii /query /source
    # impacket rejects the bind to an interface that it doesn't serve, and answers a fault for an operation.
    asks 13 "" "peer refused" other_service /resync
    asks 13 "" "peer refused" other_service /query /bits
    is_called "sync wait=1 flags=2" 12 "$not. Result 5." "not resynced, result 5" sync_alone /resync
    asks 13 "" "peer refused" sync_alone /query /source
    asks 13 "" "peer refused" sync_alone /query /bits
    cmp -s "$folder/wanted" "$folder/calls" || fail "impacket read other calls: $(diff "$folder/wanted" "$folder/calls")"
}

# Sessions are captured by tshark, which has to see the first packet.
start_capture() {
    command -v tshark >/dev/null || return 1
    tshark -q -i lo -w "$folder/capture" 2>"$folder/tshark" &
    capture=$!
    wait_until 10 test -s "$folder/capture"
}

# How many PDUs that fit a filter tshark finds.
count_of() {
    tshark -r "$folder/capture" "${ports[@]}" -Y "$1" -T fields -e dcerpc.pkt_type 2>/dev/null | wc -l
}

# impacket's faults end four bytes early, and are malformed to tshark too; nothing else is.
dissect() {
    local kind found=
    mapfile -t ports < <(sed -n 's/.* \(.*\)/-d\ntcp.port==\1,dcerpc/p' "$folder/ports")
    for kind in bind=11 bind_ack=12 request=0 response=2 fault=3; do
        found+="${kind%=*}=$(count_of "dcerpc.pkt_type == ${kind#*=}") "
    done
    found+="malformed=$(count_of "_ws.malformed && !(dcerpc.pkt_type == 3)")"
    echo "tshark: $found"
    [ "$found" = "bind=22 bind_ack=22 request=20 response=18 fault=2 malformed=0" ] || fail "tshark found other PDUs"
}

echo "== services on impacket's server"
if start_peers serve; then
    start_capture && is_captured=1
    ask_impacket
    if [ -n "${is_captured:-}" ]; then
        # What was captured last comes within a second.
        sleep 1
        kill -INT "$capture" && wait "$capture"
        dissect
    else
        say "the sessions aren't dissected: $(tail -n 1 "$folder/tshark" 2>/dev/null || echo "no tshark")"
    fi
    stop $peers
elif wait $peers; [ $? = 77 ]; then
    say "skipped, no impacket"
else
    fail "time_service.py: $(tail -n 1 "$folder/peers")"
fi

# Each listener is asked by another command in turn.
ask_listeners() {
    local silent=() peer
    # Meanwhile those that keep silent are waited for.
    for peer in silent silent_at_the_call half_and_silent; do
        late 4 "" "read fault" $peer /query /source >"$folder/late.$peer" &
        silent+=($!)
    done
    # What the kernel says of a peer that closed before it read decides here.
    for words in "/resync" "/query /source" "/query /bits"; do
        asks "4 5 13" "" any closes $words
        asks 13 "" "peer refused" hears_and_closes $words
        asks 4 "" "read fault" resets $words
        for peer in http ssh tls zeros random longest signed nak fault half; do
            asks 13 "" "peer refused" $peer $words
        done
    done
    asks 0 "The command completed successfully." "" in_pieces /resync
    asks 0 bits=0x00000000 "" in_pieces /query /bits
    asks 13 "" "peer refused" in_pieces /query /source
    for peer in "${silent[@]}"; do wait "$peer" || failed=1; done
    cat "$folder"/late.*
}

# The same of a peer that keeps silent: the run ends after 30 seconds.
late() {
    local seconds=$SECONDS
    asks "$@"
    seconds=$((SECONDS - seconds))
    echo "$4: after $seconds seconds"
    [ $seconds -ge 29 ] && [ $seconds -le 33 ] || fail "$4: after $seconds seconds"
    [ $failed = 0 ]
}

echo "== listeners that are none"
if start_peers wrong; then
    ask_listeners
    stop $peers
    # Now nobody listens there.
    for words in "/resync" "/query /source" "/query /bits"; do asks 4 "" "read fault" closes $words; done
else
    fail "time_service.py: $(tail -n 1 "$folder/peers")"
fi

[ $failed = 0 ] && echo "$script: all agree"
exit $failed
