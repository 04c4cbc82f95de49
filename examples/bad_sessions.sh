#!/bin/bash
# What `/service` makes of peers that are no clients: over 150 hostile sessions in a row, sessions that the peer resets, two at
# once, and sessions that go quiet. And what a caller says of a port that somebody has, of a service that serves another, and
# of one that isn't there. Each answer, each session's line and each code is compared with what docs/PROTOCOL.md says.
# Nothing leaves the machine, and it ends by itself, after some 40 seconds.
# Usage: examples/bad_sessions.sh
# Needs python3.
. "$(dirname "$0")/prologue.sh"
command -v python3 >/dev/null || skip "no python3"
find_program
in_own_network "$@"

printf '%s\n' Name=WS1 Role=Member Rid=1103 "account 1103 000102030405060708090a0b0c0d0e0f" \
    "computer DC1 127.0.0.1:9 S---" >"$folder/member.conf"
peer() { PYTHONDONTWRITEBYTECODE=1 python3 examples/bad_sessions.py "$@"; }

# Starts a service of so many sessions under a name, on a free port: its process as $service, its port as $calls_port.
start_service() {
    free_calls_port
    "$program" "/service:$2" "/config:$folder/member.conf" "/keeper:$folder/$1.keeper" "/capture:$folder/$1.capture" \
        "/rpcport:$calls_port" >"$folder/$1" 2>"$folder/$1.fault" &
    service=$!
    wait_for_calls $calls_port || fail "$1: the port wasn't opened"
}

# The service has ended: as Done, with these lines for its sessions, each a regular expression, and with its own.
has_ended() {
    local name=$1 wanted=$2 got code
    wait $service
    code=$?
    [ $code = 0 ] || fail "$name: code $code, $(cat "$folder/$name.fault")"
    got=$(grep '^session' "$folder/$name")
    paste -d '\n' <(echo "$wanted") <(echo "$got") | awk 'NR % 2 { want = $0; next } $0 !~ "^" want "$" { print $0 ", not " want; bad = 1 }
        END { exit bad }' >"$folder/wrong" || fail "$name: $(head -n 3 "$folder/wrong")"
    [ "$(head -n 1 "$folder/$name")" = "life mark=0" ] || fail "$name: it began otherwise"
    [ "$(tail -n 2 "$folder/$name" | cut -d ' ' -f 1 | tr '\n' ' ')" = "total link " ] || fail "$name: no closing lines"
}

sessions=$(peer count)
echo "== $sessions hostile sessions in a row"
start_service hostile "$sessions"
if peer hostile $calls_port >"$folder/wanted"; then
    has_ended hostile "$(cat "$folder/wanted")"
    sed -n 's/^session n=[0-9]* end=//p' "$folder/hostile" | sort | uniq -c
    tail -n 2 "$folder/hostile"
else
    fail "a session was answered otherwise"
    stop $service
fi

echo "== two sessions at once"
start_service two 2
peer two $calls_port || failed=1
has_ended two $'session n=1 end=Ended\nsession n=2 end=Ended'
tail -n 4 "$folder/two" | head -n 2

# A caller has to end with this code, print this, and say this on standard error.
calls() {
    local code=$1 printed=$2 fault=$3 files=$folder/called.$BASHPID got
    shift 3
    "$program" "$@" >"$files" 2>"$files.fault"
    got="code $?, '$(cat "$files")', '$(cat "$files.fault")'"
    echo "$*: $got"
    [ "$got" = "code $code, '$printed', '$fault'" ] || fail "$*: $got, and not code $code, '$printed', '$fault'"
}

echo "== a port that somebody has, and one that nobody has"
start_service first 1
taken=$calls_port
W32TM_EXPLAIN=1 calls 4 "life mark=0" \
    $'w32tm: port '"$taken"$' of remote calls: Address already in use (os error 98)\nw32tm: read fault' \
    /service:1 "/config:$folder/member.conf" "/keeper:$folder/second" "/rpcport:$taken"
calls 0 bits=0x00000000 "" /query /bits "/computer:127.0.0.1:$taken"
has_ended first "session n=1 end=Ended"
calls 4 "" "w32tm: read fault" /resync "/computer:127.0.0.1:$taken"
# The port can be had again at once.
calls_port=$((taken - 1))
start_service again 1
[ $calls_port = "$taken" ] || say "the port was left at once, but somebody else has it"
calls 0 "Local CMOS Clock" "" /query /source "/computer:127.0.0.1:$calls_port"
has_ended again "session n=1 end=Ended"

# A session that goes quiet, of this kind, has to end so after 30 seconds, and the next one to be served.
goes_quiet() {
    local kind=$1 end=$2 seconds
    start_service "$kind" 2
    peer quiet "$kind" $calls_port >"$folder/$kind.seconds" || fail "$kind: it ended otherwise"
    seconds=$(cat "$folder/$kind.seconds")
    calls 0 bits=0x00000000 "" /query /bits "/computer:127.0.0.1:$calls_port" >"$folder/$kind.called"
    has_ended "$kind" "session n=1 end=$end"$'\nsession n=2 end=Ended'
    echo "$kind: $end after $seconds seconds, and the next session was served"
    # How long it takes until the service can write no more, depends on the machine.
    [ "$seconds" -ge 29 ] && { [ "$kind" = deaf ] || [ "$seconds" -le 33 ]; } || fail "$kind: after $seconds seconds"
    [ $failed = 0 ]
}

# A session of 10,001 PDUs ends after 10,000 of them.
goes_on() {
    start_service long 2
    peer long $calls_port || fail "long: it ended otherwise"
    calls 0 bits=0x00000000 "" /query /bits "/computer:127.0.0.1:$calls_port" >"$folder/long.called"
    has_ended long $'session n=1 end=Spent\nsession n=2 end=Ended'
    echo "long: Spent after 10,000 PDUs, and the next session was served"
    [ $failed = 0 ]
}

# A caller whose service serves somebody else, or takes no connection, gives up after 30 seconds.
gives_up() {
    local seconds=$SECONDS
    calls 4 "" "w32tm: read fault" "${@:2}"
    seconds=$((SECONDS - seconds))
    echo "$1: after $seconds seconds"
    [ $seconds -ge 29 ] && [ $seconds -le 33 ] || fail "$1: after $seconds seconds"
    [ $failed = 0 ]
}

echo "== sessions that go quiet or on and on, and a service that isn't there"
quiet=()
for kind in nothing header pdu bound; do
    goes_quiet $kind ReadFault >"$folder/quiet.$kind" &
    quiet+=($!)
    free_calls_port
done
goes_quiet deaf WriteFault >"$folder/quiet.deaf" &
quiet+=($!)
free_calls_port
goes_on >"$folder/quiet.long" &
quiet+=($!)
peer full "$folder/port" &
full=$!
wait_until 10 test -e "$folder/port" || fail "no port was filled"
gives_up full /resync "/computer:127.0.0.1:$(cat "$folder/port")" >"$folder/quiet.full" &
quiet+=($!)
for one in "${quiet[@]}"; do wait "$one" || failed=1; done
cat "$folder"/quiet.*
stop $full

[ $failed = 0 ] && echo "$script: all as it should be"
exit $failed
