#!/bin/bash
# Clients that share no code with it take the time from `/dc`, plain and signed, and `/monitor` asks servers that share
# no code with it. All of it is on loopback, where the machine allows it in a network of its own, with port 123; no
# clock is set, and all ends by itself.
# Usage: examples/peers/take_time.sh
# Needs python3. Debian's chrony, and ntpsec-ntpdig, ntpsec-ntpdate or sntp are asked where they are; what is missing is
# said.
. "$(dirname "$0")/../prologue.sh"
peers=examples/peers
command -v python3 >/dev/null || skip "no python3"
find_program
in_own_network "$@"
if [ "${1:-}" = inside ]; then
    port=123
else
    say "no network of its own here, so port 123 is left alone"
    free_port
fi

rid=1103
key=000102030405060708090a0b0c0d0e0f
previous=0f0e0d0c0b0a09080706050403020100
# What other clients call the key: the four bytes of the RID, the last one first. The highest bit of the RID asks for
# the previous key.
number=$((16#4f040000))
previous_number=$((16#4f040080))
cat >"$folder/dc.conf" <<END_OF_TEXT
Name=DC1
Role=Pdc
Rid=1001
account 1001 00112233445566778899aabbccddeeff
account $rid $key $previous
computer DC1 127.0.0.1:$port S--E
END_OF_TEXT
cat >"$folder/keys" <<END_OF_TEXT
$number MD5 HEX:$key
$previous_number MD5 HEX:$previous
END_OF_TEXT
sed 's/HEX://' "$folder/keys" >"$folder/ntpsec.keys"

# Starts `/dc` for so many turns; its closing lines will be in $folder/dc.
start() {
    "$program" "/dc:$1" "/config:$folder/dc.conf" "/port:$port" >"$folder/dc" &
    controller=$!
    wait_for_port "$port" || fail "/dc didn't open its port"
}

# Takes up the turns that are left, and tells how `/dc` ended.
finish_dc() {
    python3 $peers/client.py fill "$port" 1000
    wait "$controller" || fail "/dc ended with code $?"
}

# One client's run: its name, what has to be in the closing lines, and its words. What it says is shown.
client() {
    local name=$1 lines=$2 code
    shift 2
    start 60
    "$@" >"$folder/said" 2>&1
    code=$?
    finish_dc
    grep -v 'starting\|exiting\|Disabled control\|privileges' "$folder/said" | sed "s/^/$name: /"
    if [ $code != 0 ] || ! grep -q "$lines" "$folder/dc"; then
        fail "$name ended with code $code, and /dc wrote: $(tr '\n' ';' <"$folder/dc")"
    fi
}

echo "== a client in Python, all forms of request and all refusals"
start 2200
python3 $peers/client.py ask "$port" "$folder/dc.conf" >"$folder/said" || fail "the client ended with code $?"
cat "$folder/said"
finish_dc
for line in "$(grep '^signed=' "$folder/said" | cut -d ' ' -f 1)" "$(grep '^refused ' "$folder/said")"; do
    if [ -z "$line" ] || ! grep -q "^$line\b" "$folder/dc"; then fail "/dc wrote: $(tr '\n' ';' <"$folder/dc")"; fi
done

echo "== /monitor and that controller"
start 10
"$program" /monitor "/config:$folder/dc.conf" >"$folder/said" || fail "/monitor ended with code $?"
finish_dc
cat "$folder/said"
grep -q '^DC1 offset=-\?[0-9]* delay=[0-9]* stratum=1$' "$folder/said" || fail "/monitor found no offset"

echo "== /monitor and twenty servers in Python, each with an answer of its own"
python3 $peers/responder.py serve "$folder/monitor.conf" &
wait_until 10 test -e "$folder/monitor.conf"
"$program" /monitor "/config:$folder/monitor.conf" >"$folder/said" || fail "/monitor ended with code $?"
python3 $peers/responder.py judge <"$folder/said" || fail "/monitor said something else"

if command -v chronyd >/dev/null; then
    echo "== $(chronyd -v)"
    # In its one-shot mode it takes the time, prints how wrong the clock is, and leaves it so.
    one_shot() {
        chronyd -u "$(id -un)" -Q -t 5 "pidfile $folder/chronyd.pid" "cmdport 0" "bindcmdaddress /" \
            "keyfile $folder/keys" "server 127.0.0.1 port $port iburst maxsamples 1 $*"
    }
    client "chronyd, plain" '^signed=0 plain=' one_shot
    client "chronyd, current key" '^signed=[1-9]' one_shot key $number
    client "chronyd, previous key" '^signed=[1-9]' one_shot key $previous_number

    # A key that the controller doesn't have: signed replies come, and chronyd takes none of them.
    sed -i 's/HEX:00/HEX:ff/' "$folder/keys"
    start 60
    if one_shot key $number >"$folder/said" 2>&1; then
        fail "chronyd took a reply under another key"
    else
        echo "chronyd, another key: no reply taken"
    fi
    finish_dc
    grep -q '^signed=[1-9]' "$folder/dc" || fail "/dc signed nothing for another key"

    server=12400
    while is_taken $server; do server=$((server + 1)); done
    chronyd -U -u "$(id -un)" -x -d "pidfile $folder/chronyd.pid" "cmdport 0" "bindcmdaddress /" "port $server" \
        "bindaddress 127.0.0.1" "allow 127.0.0.1" "local stratum 7" >"$folder/chronyd" 2>&1 &
    wait_for_port "$server" || fail "chronyd opened no port: $(tail -n 1 "$folder/chronyd")"
    sed "s/:$port /:$server /" "$folder/dc.conf" >"$folder/chronyd.conf"
    "$program" /monitor "/config:$folder/chronyd.conf" >"$folder/said" || fail "/monitor ended with code $?"
    sed 's/^/\/monitor: /' "$folder/said"
    grep -q '^DC1 offset=-\?[0-9]* delay=[0-9]* stratum=7$' "$folder/said" || fail "/monitor found no offset of chronyd"
else
    echo "== no chronyd"
fi

# These know no port but 123.
if [ "$port" != 123 ]; then
    echo "== ntpdig, ntpdate, sntp: skipped, no port 123"
elif command -v ntpdig >/dev/null; then
    echo "== $(ntpdig --version 2>&1 | head -n 1)"
    client "ntpdig, plain" '^signed=0 plain=' ntpdig -j 127.0.0.1
    client "ntpdig, current key" '^signed=[1-9]' ntpdig -j -a $number -k "$folder/ntpsec.keys" 127.0.0.1
elif command -v ntpdate >/dev/null; then
    echo "== ntpdate"
    client "ntpdate, plain" '^signed=0 plain=' ntpdate -q 127.0.0.1
elif command -v sntp >/dev/null; then
    echo "== sntp"
    client "sntp, plain" '^signed=0 plain=' sntp 127.0.0.1
else
    echo "== no ntpdig, ntpdate or sntp"
fi

[ $failed = 0 ] && echo "$script: all agree"
exit $failed
