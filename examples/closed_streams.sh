#!/bin/bash
# Each command with each of the eight sets of closed standard streams, with settings and without, and with a port that is
# taken. A closed stream has to be a device each call of which fails, and no file may take its place: so exit codes are
# compared, and the bytes of the keeper's file and of the capture.
# Usage: examples/closed_streams.sh
. "$(dirname "$0")/prologue.sh"
find_program
cases=0

free_port
"$program" /dc:300 /config:examples/local/dc.conf "/port:$port" >/dev/null &
wait_for_port "$port" || die "/dc opened no port"
taken=$port
free_port
config=$folder/member.conf
sed "s/:12300 /:$port /" examples/local/member.conf >"$config"

# Runs the words with these streams closed, a set of the letters i, o and e, and gives the code.
run() {
    local closed=$1 input=$2 code
    shift 2
    (
        exec <"$input" >/dev/null 2>/dev/null
        case $closed in *i*) exec <&- ;; esac
        case $closed in *o*) exec >&- ;; esac
        case $closed in *e*) exec 2>&- ;; esac
        exec "$program" "$@"
    )
    code=$?
    cases=$((cases + 1))
    return $code
}

# A case: the code with all streams, with a closed input and with a closed output; then the input and the words.
says() {
    local open=$1 no_input=$2 no_output=$3 input=$4 closed wanted code
    shift 4
    for closed in - i o e io ie oe ioe; do
        rm -f "$folder/keeper" "$folder/capture"
        run "$closed" "$input" "$@"
        code=$?
        wanted=$open
        case $closed in *o*) wanted=$no_output ;; esac
        case $closed in *i*) [ "$no_input" = 0 ] || wanted=$no_input ;; esac
        if [ $code != "$wanted" ]; then
            say "$* with $closed closed: code $code, and not $wanted"
            failed=1
        fi
        keeper_is_whole "$wanted" "$closed" "$@"
        capture_is_whole "$closed" "$@"
    done
}

# The keeper's file has 256 bytes and no text: it stands for 64 after a request, and for nothing where the run ended before.
keeper_is_whole() {
    local code=$1 closed=$2 bytes wanted
    [ -e "$folder/keeper" ] || return
    bytes=$(od -An -v -tx1 "$folder/keeper" | tr -d ' \n')
    wanted=$(printf '%0512d' 0)
    [ "$code" = 0 ] && wanted=a501000000000040${wanted:16}
    if [ "$bytes" != "$wanted" ]; then
        say "${*:3} with $closed closed: another keeper: $(head -c 40 "$folder/keeper" | tr -c '[:print:]' .)"
        failed=1
    fi
}

# A capture begins with the first event, and has the bytes of no line in it.
capture_is_whole() {
    [ -e "$folder/capture" ] || return
    if [ "$(head -c 5 "$folder/capture" | od -An -c | tr -d ' ')" != '001W32T' ] || grep -aq 'life mark\|ops=' "$folder/capture"; then
        say "${*:2} with $1 closed: another capture: $(head -c 40 "$folder/capture" | tr -c '[:print:]' .)"
        failed=1
    fi
}

member=("/member:1" "/keeper:$folder/keeper")
says 0 0 5 /dev/null /dc:1 "/config:$config" "/port:$port"
says 0 0 5 /dev/null "${member[@]}" "/config:$config"
says 0 0 5 /dev/null /monitor "/config:$config"
says 0 4 5 /dev/null /replay "/config:$config"
says 0 4 5 examples/request.bin /sign:1103:000102030405060708090a0b0c0d0e0f
says 0 0 5 /dev/null "/show:$(printf '%096d' 0)"
capture=$folder/capture
says 0 0 5 /dev/null /simulate:1:2
says 0 0 5 /dev/null /simulate:1:2 "/capture:$capture"
# The report of this member goes to standard output, and its record to the capture, which has to hold nothing else.
says 0 0 5 /dev/null "${member[@]}" "/config:$config" "/capture:$capture"
# Nobody listens on this port.
for call in /resync "/query /source" "/query /bits"; do says 4 4 4 /dev/null $call "/computer:127.0.0.1:$port"; done
for command in /dc:1 /monitor /replay; do says 4 4 4 /dev/null $command "/config:$folder/missing"; done
says 4 4 4 /dev/null "${member[@]}" "/config:$folder/missing"
says 0 0 5 /dev/null /dc:1 "/config:$config" "/port:$taken"
says 0 0 5 /dev/null "${member[@]}" "/config:$config" "/port:$taken"

[ $failed = 0 ] && echo "$script: $cases cases, all as they should be"
exit $failed
