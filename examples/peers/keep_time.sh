#!/bin/bash
# `/member` keeps its time by a chronyd on loopback, in a network of its own where the machine allows it; no clock of
# the machine is set, and all ends by itself. Each reply has to be accepted, and the capture of each run replayed to the
# same report, by `/replay` and by replay.py.
#
# Once chronyd signs, by a symmetric key of its own: it has the key under the four bytes of the RID, the last one first.
# For that each request gets a digest on the way (signer.py). Then chronyd gets the member's requests as they are, and
# hands its replies to a signing service, as in a Samba domain, which is signer.py too. At last chronyd has another key,
# and nothing may be accepted.
# Usage: examples/peers/keep_time.sh. KEEP_TIME_TURNS in the environment is the number of turns of each run, else 12.
# Needs python3. Skipped without Debian's chrony.
. "$(dirname "$0")/../prologue.sh"
peers=examples/peers
turns=${KEEP_TIME_TURNS:-12}
for tool in python3 chronyd; do command -v $tool >/dev/null || skip "no $tool"; done
find_program
in_own_network "$@"
chmod 755 "$folder"

rid=1103
key=000102030405060708090a0b0c0d0e0f
number=$((16#4f040000))

# A chronyd on $server that tells the machine's time as stratum 7, with this key and these words besides.
start_chronyd() {
    free_port
    server=$port
    echo "$number MD5 HEX:$1" >"$folder/keys"
    shift
    chronyd -U -u "$(id -un)" -x -d "pidfile $folder/chronyd.pid" "cmdport 0" "bindcmdaddress /" "port $server" \
        "bindaddress 127.0.0.1" "allow 127.0.0.1" "local stratum 7" "keyfile $folder/keys" "$@" \
        >"$folder/chronyd" 2>&1 &
    chronyd=$!
    wait_for_port "$server" || fail "chronyd: $(tail -n 1 "$folder/chronyd")"
}

# A run of the member against a port: its report is in $folder/report.
run_member() {
    cat >"$folder/member.conf" <<END_OF_TEXT
Name=WS1
Role=Member
Rid=$rid
account $rid $key
computer DC1 127.0.0.1:$1 S---
MinPollInterval=0
MaxPollInterval=0
END_OF_TEXT
    "$program" "/member:$turns" "/config:$folder/member.conf" "/keeper:$folder/keeper" "/capture:$folder/capture" \
        >"$folder/report" || fail "/member ended with code $?"
    cat "$folder/report"
}

# The capture has to give the report again, without its last line.
replay_run() {
    "$program" /replay "/config:$folder/member.conf" "/capture:$folder/capture" >"$folder/replayed" ||
        fail "/replay ended with code $?"
    sed '$d' "$folder/report" | cmp -s - "$folder/replayed" || fail "/replay wrote another report"
    python3 $peers/replay.py lines "$folder/member.conf" "$folder/capture" >"$folder/replayed" ||
        fail "replay.py ended with code $?"
    sed '$d' "$folder/report" | cmp -s - "$folder/replayed" || fail "replay.py wrote another report"
    echo "replayed: $(stat -c %s "$folder/capture") bytes, the same report"
}

# Each request was answered, and each answer accepted.
all_accepted() {
    local sent
    sent=$(grep -c '^send ' "$folder/report")
    if [ "$sent" -lt 2 ] || ! grep -q "^total sent=$sent moved=$sent refused=0$" "$folder/report"; then
        fail "not each reply was accepted: $(grep '^total' "$folder/report")"
    fi
    replay_run
}

echo "== $(chronyd -v | cut -d ' ' -f 1-4) with the member's key as a symmetric key of its own"
start_chronyd $key
free_port
python3 $peers/signer.py fill "$port" "$server" $key &
signer=$!
if wait_for_port "$port"; then run_member "$port" && all_accepted; else fail "signer.py opened no port"; fi
stop $signer $chronyd

echo "== chronyd with a signing service"
mkdir "$folder/signd"
python3 $peers/signer.py sign "$folder/signd" $rid $key &
signer=$!
wait_until 10 test -e "$folder/signd/socket"
start_chronyd $key "ntpsigndsocket $folder/signd"
run_member "$server" && all_accepted
stop $signer $chronyd

# chronyd takes no request under a key that it doesn't have, so here the signing service has another key than the
# member.
echo "== chronyd with a signing service that has another key"
rm -r "$folder/signd" && mkdir "$folder/signd"
python3 $peers/signer.py sign "$folder/signd" $rid "ff${key:2}" &
signer=$!
wait_until 10 test -e "$folder/signd/socket"
start_chronyd $key "ntpsigndsocket $folder/signd"
run_member "$server"
if ! grep -q '^refused reason=BadDigest$' "$folder/report" || grep -q '^moved ' "$folder/report"; then
    fail "a reply under another key wasn't refused"
fi
replay_run
stop $signer $chronyd

[ $failed = 0 ] && echo "$script: all agree"
exit $failed
