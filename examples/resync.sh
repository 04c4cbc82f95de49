#!/bin/bash
# A computer has another one synchronize: `/dc` and `/service` run on loopback, and `/resync` and `/query` call the service.
# It shows what all of them print, and reads the service's capture again by `/replay`. No clock of the machine is set, it ends
# by itself, and it leaves nothing. The settings are those of examples/local/, on free ports.
# Usage: examples/resync.sh
. "$(dirname "$0")/prologue.sh"
find_program
port=12299
free_port
free_calls_port
for text in dc member; do sed "s/:12300 /:$port /" "examples/local/$text.conf" >"$folder/$text.conf"; done
cd "$folder" || exit 1

# Shows a command, carries it out and shows what it prints. That is kept in answers too.
run() {
    local code
    echo "\$ w32tm $*"
    "$program" "$@" >answer
    code=$?
    tee -a answers <answer
    [ $code = 0 ] || fail "$*: code $code"
}

echo "\$ w32tm /dc:6 /config:dc.conf /port:$port &"
"$program" /dc:6 /config:dc.conf "/port:$port" >dc &
controller=$!
echo "\$ w32tm /service:4 /config:member.conf /keeper:keeper /capture:capture /rpcport:$calls_port &"
"$program" /service:4 /config:member.conf /keeper:keeper /capture:capture "/rpcport:$calls_port" >report &
service=$!
wait_for_port $port && wait_for_calls $calls_port || die "a port wasn't opened"

run /query /source "/computer:127.0.0.1:$calls_port"
run /resync "/computer:127.0.0.1:$calls_port"
run /query /source "/computer:127.0.0.1:$calls_port"
run /query /bits "/computer:127.0.0.1:$calls_port"
echo "\$ wait"
wait $service || fail "/service ended with code $?"
cat report
wait $controller || fail "/dc ended with code $?"
cat dc

# What a computer was told, and what the service did: one request, whose reply moved its clock.
cmp -s answers <(printf '%s\n' "Local CMOS Clock" "The command completed successfully." DC1 bits=0x00000000) ||
    fail "a call had another answer"
grep -q '^total sent=1 moved=1 refused=0$' report || fail "the service's clock wasn't moved once"
[ "$(grep -c '^session n=[1-4] end=Ended$' report)" = 4 ] || fail "a session ended otherwise"
run /replay /config:member.conf /capture:capture
cmp -s answer <(grep -v '^session \|^link ' report) || fail "the capture gave another report"
exit $failed
