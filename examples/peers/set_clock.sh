#!/bin/bash
# `/member /clock:` gives chronyd what it measured: a server in Python that is ahead of this machine signs (responder.py),
# the member judges, socat hands its samples on, and `chronyd -x` says how far the clock is. That measures and doesn't touch
# the clock. All is on loopback, in a network of its own where the machine allows it, takes no rights, and ends by itself.
#
# chronyd has to say 0.125 s and then 3 s, within a millisecond. A forged reply and one past MaxPosPhaseCorrection may
# change nothing in chronyd, and under another key the source has to stay unreachable.
# Usage: examples/peers/set_clock.sh. SET_CLOCK_MINUTES in the environment adds a longer run, asked each 16 s, which may
# show no drift between chronyd's estimate and the server's offset: in its second half these differ by a millisecond at most,
# by the median.
# Needs python3. Skipped without Debian's chrony and socat.
. "$(dirname "$0")/../prologue.sh"
for tool in python3 chronyd chronyc socat; do command -v $tool >/dev/null || skip "no $tool"; done
find_program
"$program" /member:1 /config:/dev/null "/keeper:$folder/none" "/clock:$folder/none" >/dev/null 2>&1
[ $? != 1 ] || skip "$program has no /clock:"
in_own_network "$@"
chmod 755 "$folder"

rid=1103
key=000102030405060708090a0b0c0d0e0f

# Whether somebody reads this pipe.
is_read() { python3 -c 'import os, sys; os.open(sys.argv[1], os.O_WRONLY | os.O_NONBLOCK)' "$1" 2>/dev/null; }

# The server, chronyd and socat. chronyd looks at its samples each 2^$1 seconds, takes the median of the last $2, and keeps a
# line of each.
start_chain() {
    free_port
    server=$port
    python3 examples/peers/responder.py sign "$server" $key "$folder/ahead" &
    responder=$!
    wait_for_port "$server" || fail "the server didn't open its port"
    rm -rf "$folder/log" "$folder/fifo" "$folder/socket"
    free_port
    chronyd -U -u "$(id -un)" -x -d "pidfile $folder/chronyd.pid" "port 0" "cmdport $port" "bindcmdaddress 127.0.0.1" \
        "bindcmdaddress /" "logdir $folder/log" "log refclocks" \
        "refclock SOCK $folder/socket refid AD poll $1 filter $2 precision 1e-4 delay 1e-3" >"$folder/chronyd" 2>&1 &
    chronyd=$!
    wait_until 10 test -S "$folder/socket" || fail "chronyd: $(tail -n 1 "$folder/chronyd")"
    mkfifo "$folder/fifo"
    socat -u -b40 "PIPE:$folder/fifo,rdwr" "UNIX-SENDTO:$folder/socket" &
    socat=$!
    # A sample that nobody reads ends the member.
    wait_until 10 is_read "$folder/fifo" || fail "socat didn't open the pipe"
}
stop_chain() { stop $socat $chronyd $responder; }

# The member in the background, with this key and poll exponent, for a million turns.
start_member() {
    cat >"$folder/member.conf" <<END_OF_TEXT
Name=WS1
Role=Member
Rid=$rid
account $rid $1
computer DC1 127.0.0.1:$server S---
MaxPosPhaseCorrection=100
MinPollInterval=$2
MaxPollInterval=$2
END_OF_TEXT
    : >"$folder/report"
    "$program" /member:1000000 "/config:$folder/member.conf" "/keeper:$folder/keeper" "/clock:$folder/fifo" \
        >"$folder/report" &
    member=$!
}

ask() { chronyc -h 127.0.0.1 -p "$port" -c "$@"; }
# By how much chronyd says that the machine's clock is behind, and what is left of that in its samples.
behind() { ask tracking | cut -d , -f 5; }
rest() { ask sourcestats | cut -d , -f 7; }
samples() { cat "$folder"/log/refclocks* 2>/dev/null | grep -c ' AD  *[0-9]'; }
reports() { grep -c "^$1" "$folder/report"; }
is_near() { python3 -c 'import sys; a, b = map(float, sys.argv[1:]); sys.exit(abs(a - b) > 0.001)' "$1" "$2"; }
says() {
    said=$(behind)
    left=$(rest)
    is_near "$said" "$1" && is_near "$left" 0
}

# What the server answers from now on. It reads the file at any moment, so that is put in place whole.
answer_by() {
    echo "$1" >"$folder/ahead.new"
    mv -f "$folder/ahead.new" "$folder/ahead"
}

# The server is ahead by so many seconds from now on, and chronyd has to come to that.
settle() {
    answer_by "$1"
    if wait_until 120 says "$1"; then
        echo "the server is $1 s ahead: chronyd says $said s, and $left s more by its samples"
    else
        fail "the server is $1 s ahead: chronyd says $said s, and $left s more by its samples"
    fi
}

# The server answers so from now on, which is refused for this reason; chronyd may see nothing of it.
refused() {
    local before after told
    told=$(reports "refused reason=$2")
    answer_by "$1"
    has_refused() { [ "$(reports "refused reason=$1")" -ge "$2" ]; }
    wait_until 20 has_refused "$2" $((told + 1)) || fail "no reply was refused by $2"
    before="$(samples) $(behind)"
    wait_until 20 has_refused "$2" $((told + 4)) || fail "no more replies were refused by $2"
    after="$(samples) $(behind)"
    if [ "${before% *}" = "${after% *}" ] && is_near "${before#* }" "${after#* }"; then
        echo "the server says $1: $2 three times more, ${after% *} samples as before, and chronyd says ${after#* } s"
    else
        fail "$2: chronyd had $before, and has $after (samples, seconds)"
    fi
}

echo "== $(chronyd -v | cut -d ' ' -f 1-4), a server ahead of this machine"
answer_by 0.125
start_chain 2 3
start_member $key 0
settle 0.125
refused "0.125 forged" BadDigest
refused 200 TooBig
settle 3
stop $member
stop_chain

echo "== a member with another key"
answer_by 0.125
start_chain 2 3
start_member "ff${key:2}" 0
refuses_often() { [ "$(reports 'refused reason=BadDigest')" -ge 5 ]; }
wait_until 20 refuses_often || fail "replies under another key weren't refused"
reach=$(ask sources | cut -d , -f 6)
if [ "$(reports moved)" = 0 ] && [ "$reach" = 0 ] && [ "$(samples)" = 0 ]; then
    echo "refused by BadDigest five times: chronyd has no sample, and its source's reach is $reach"
else
    fail "another key: reach $reach, $(samples) samples, $(reports moved) moves"
fi
stop $member
stop_chain

# A longer run: each minute what chronyd says, less what the server is ahead.
if [ -n "${SET_CLOCK_MINUTES:-}" ]; then
    echo "== $SET_CLOCK_MINUTES minutes, asked each 16 s, 0.125 s ahead: what chronyd says less 0.125 s, each minute, in microseconds"
    start_chain 6 3
    start_member $key 4
    wait_until 300 says 0.125 || fail "chronyd says $(behind) after five minutes"
    # A reply that is held up on a busy machine moves some minutes, and a drift all later ones: so the median is judged.
    all=()
    for _ in $(seq "$SET_CLOCK_MINUTES"); do
        sleep 60
        said=$(behind)
        all+=("$said")
        python3 -c 'import sys; print(round((float(sys.argv[1]) - 0.125) * 1e6), end=" ", flush=True)' "$said"
    done
    echo
    said=$(printf '%s\n' "${all[@]:$((${#all[@]} / 2))}" | sort -g | awk '{ a[NR] = $1 } END { print a[int((NR + 1) / 2)] }')
    is_near "$said" 0.125 || fail "in the second half chronyd says $said s in the middle"
    echo "$(reports moved) replies were accepted, and chronyd has $(samples) samples; $(ask sourcestats)"
    kill -0 $member || fail "the member ended"
    stop $member
    stop_chain
fi
[ $failed = 0 ] && echo "set_clock.sh: all agree"
exit $failed
