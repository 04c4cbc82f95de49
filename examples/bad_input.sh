#!/bin/bash
# What the commands say where words, settings, files or ports are wrong: code and line of each case beside what
# docs/PROTOCOL.md has. Nothing leaves the machine, and it ends by itself.
# Usage: examples/bad_input.sh
. "$(dirname "$0")/prologue.sh"
find_program
cases=0

# A case: the code, the line on standard error, the last line on standard output, and the words.
says() {
    local code=$1 fault=$2 last=$3 got
    shift 3
    cases=$((cases + 1))
    "$program" "$@" >"$folder/out" 2>"$folder/fault" </dev/null
    got="code $?, '$(cat "$folder/fault")', '$(tail -n 1 "$folder/out")'"
    if [ "$got" != "code $code, '$fault', '$last'" ]; then
        say "$*: $got, and not code $code, '$fault', '$last'"
        failed=1
    fi
}
bad_words() { says 1 "w32tm: bad words" "" "$@"; }

# A text of settings that are right, and with other lines after them.
settings() { printf '%s\n' Name=DC1 Role=Pdc Rid=1001 "account 1001 00112233445566778899aabbccddeeff" "$@"; }
settings >"$folder/dc.conf"
config=/config:$folder/dc.conf

# Words.
bad_words
for word in "" /dc /dc: /dc:0 /dc:01 /dc:+1 /dc:1000001 /dc:1x /DC:1 dc:1 /monitor: /monitor:1 /replay: /help --help; do
    bad_words "$word" "$config"
done
for option in /port:0 /port:00123 /port:65536 /port:+5 /port: /port /capture:x /clock:x /rpcport:1 "$config" /config /x ""; do
    bad_words /dc:1 "$config" "$option"
    bad_words /monitor "$config" "$option"
done
for option in /port:12300 "$config" /capture: /capture /clock:x /x; do bad_words /replay "$config" "$option"; done
bad_words /replay "$config" "/capture:$folder/x" "/capture:$folder/x"
for command in /dc:1 /monitor /replay; do
    bad_words $command
    bad_words $command /config:
    bad_words "$config" $command
done
bad_words /dc:1 /port:12300
for word in /member /member: /member:0 /member:01 /member:1000001; do bad_words $word "$config" "/keeper:$folder/keeper"; done
for option in "" /keeper: /keeper "/keeper:$folder/a /keeper:$folder/b" "/keeper:$folder/a /capture:" \
    "/keeper:$folder/a /port:0" "/keeper:$folder/a /rpcport:1" "/keeper:$folder/a /clock:" \
    "/keeper:$folder/a /clock:$folder/b /clock:$folder/c"; do
    bad_words /member:1 "$config" $option
done
bad_words /dc:1 "$config" "/keeper:$folder/keeper"
for word in /service /service: /service:0 /service:01 /service:10001; do bad_words $word "$config" "/keeper:$folder/keeper"; done
bad_words /service:1 "$config"
for option in /rpcport:0 /rpcport:65536 /rpcport:01 /nowait /computer:127.0.0.1 "/rpcport:1 /rpcport:1"; do
    bad_words /service:1 "$config" "/keeper:$folder/keeper" $option
done
# What isn't built.
for words in /relay:1 /vote /signd:1; do
    bad_words $words "$config"
done
for words in "/query /source /bits" /query "/query /source /source" "/query /source /nowait" "/source /query" "/resync /source" \
    "/resync /nowait /nowait" "/resync /computer:" "/resync /computer:10.0.0.1:0" "/resync /computer:10.0.0.256" /resync: /query:; do
    bad_words $words
done
for word in /simulate /simulate: /simulate:1 /simulate:1:0 /simulate:1:100001 /simulate:01:2 /simulate:4294967296:2; do
    bad_words $word
done
for option in "$config" /port:12300 /capture: "/capture:$folder/a /capture:$folder/b"; do bad_words /simulate:1:2 $option; done
bad_words /resync "$config"
bad_words /query /bits "$config"
bad_words /dc:1 "$config" $'/port:1\xff'

# Settings, by each command that reads them.
mkdir "$folder/folder"
printf 'Name=DC1\nRole=Chief\n' >"$folder/role"
settings Name=DC2 >"$folder/twice"
settings "computer A 10.0.0.1:123 S--E " >"$folder/blank"
settings MinPollInterval=7 MaxPollInterval=6 >"$folder/polls"
settings | sed '4d' >"$folder/account"
settings | tr '\n' '\r' >"$folder/returns"
# As many bytes as a text may have, by comments, and one more.
(settings; head -c 16777216 /dev/zero | tr '\0' '#' | fold -w 255) | head -c 16777216 >"$folder/most"
(cat "$folder/most"; printf '#') >"$folder/more"
lines=$(grep -c '' "$folder/more")
for command in /dc:1 /monitor /replay; do
    for file in missing folder missing/dc.conf; do
        says 4 "w32tm: read fault" "" $command "/config:$folder/$file"
    done
    says 2 "w32tm: bad settings at line 1" "" $command /config:/dev/null
    says 2 "w32tm: bad settings at line 2" "" $command "/config:$folder/role"
    says 2 "w32tm: bad settings at line 5" "" $command "/config:$folder/twice"
    says 2 "w32tm: bad settings at line 5" "" $command "/config:$folder/blank"
    says 2 "w32tm: bad settings at line 7" "" $command "/config:$folder/polls"
    says 2 "w32tm: bad settings at line 4" "" $command "/config:$folder/account"
    says 2 "w32tm: bad settings at line 1" "" $command "/config:$folder/returns"
    says 2 "w32tm: bad settings at line $lines" "" $command "/config:$folder/more"
done
says 11 "w32tm: no partner" "" /replay "/config:$folder/most"
if [ "$(id -u)" != 0 ]; then
    chmod 0 "$folder/twice"
    says 4 "w32tm: read fault" "" /dc:1 "/config:$folder/twice"
fi

# A port that somebody has: every receive fails, and `/dc` takes its turns all the same.
free_port
"$program" /dc:5 "$config" "/port:$port" >"$folder/first" &
wait_for_port $port
says 0 "" "link quiet=0 lost=1000 unsent=0" /dc:1000 "$config" "/port:$port"
settings "computer DC1 127.0.0.1:$port S--E" >"$folder/one"
says 0 "" "total computers=1 answered=0" /monitor "/config:$folder/one" "/port:$port"
wait $!

# A directory without computers, captures that can't be had, and an output that takes nothing.
says 0 "" "total computers=0 answered=0" /monitor "$config"
says 11 "w32tm: no partner" "" /replay "$config"
says 11 "w32tm: no partner" "" /replay "$config" "/capture:$folder/missing"
member=/config:examples/member.conf
says 0 "" "total sent=0 moved=0 refused=0" /replay "$member"
says 0 "" "total sent=0 moved=0 refused=0" /replay "/capture:/dev/null" "$member"
says 4 "w32tm: read fault" "" /replay "$member" "/capture:$folder/missing"
says 4 "w32tm: read fault" "" /replay "$member" "/capture:$folder/folder"
says 3 "w32tm: bad capture at byte 0" "" /replay "$member" /capture:examples/member.conf

# A member's run: settings first, then its partners, its keeper's file, its capture. Nothing answers it here.
settings "computer DC2 127.0.0.1:$port S---" | sed 's/^Role=.*/Role=Member/' >"$folder/member.conf"
alone="/member:1 /config:$folder/member.conf"
keeper=/keeper:$folder/keeper
says 4 "w32tm: read fault" "" /member:1 "/config:$folder/missing" "/keeper:$folder/missing/keeper"
says 2 "w32tm: bad settings at line 2" "" /member:1 "/config:$folder/role" "/keeper:$folder/missing/keeper"
says 11 "w32tm: no partner" "" /member:1 "$config" "/keeper:$folder/missing/keeper"
for file in missing/keeper folder; do says 6 "w32tm: disk fault" "" $alone "/keeper:$folder/$file"; done
# A file that is longer than a keeper stays as it is.
cp examples/member.conf "$folder/settings"
says 6 "w32tm: disk fault" "" $alone "/keeper:$folder/settings"
cmp -s examples/member.conf "$folder/settings" || { say "/keeper: wrote over a settings text"; failed=1; }
# A clock of which no sample can be taken isn't opened before the first correction, which doesn't come here.
says 0 "" "link quiet=1 lost=0" $alone "$keeper" "/clock:$folder/missing"
# A file that can't be filled up to its 256 bytes, and one that can't be written.
says 6 "w32tm: disk fault" "" $alone /keeper:/dev/full
if [ "$(id -u)" != 0 ]; then
    : >"$folder/kept"
    chmod 400 "$folder/kept"
    says 6 "w32tm: disk fault" "" $alone "/keeper:$folder/kept"
fi
printf '\245\011\0\0\0\0\0\100' >"$folder/version"
printf '\245\001\0\0\377\377\377\300' >"$folder/spent"
says 7 "w32tm: bad keeper" "" $alone "/keeper:$folder/version"
says 8 "w32tm: stamps spent" "life mark=4294967232" $alone "/keeper:$folder/spent"
says 0 "" "link quiet=1 lost=0" $alone "$keeper"
for file in missing/capture folder; do says 5 "w32tm: write fault" "" $alone "$keeper" "/capture:$folder/$file"; done
says 5 "w32tm: write fault" "" $alone "$keeper" /capture:/dev/full
says 0 "" "link quiet=1 lost=0" $alone "$keeper" "/capture:$folder/capture"
says 0 "" "total sent=1 moved=0 refused=0" /replay "/config:$folder/member.conf" "/capture:$folder/capture"
for words in "/dc:1 $config /port:$port" "/monitor $config" "/replay $member" "$alone $keeper"; do
    cases=$((cases + 1))
    $program $words >/dev/full 2>"$folder/fault" </dev/null
    code=$?
    if [ $code != 5 ] || [ "$(cat "$folder/fault")" != "w32tm: write fault" ]; then
        say "$words: code $code and '$(cat "$folder/fault")' where the output is full"
        failed=1
    fi
done

# With W32TM_EXPLAIN=1 what can't be opened is named, with the reason, in a line before that of the status.
explains() {
    local explanation=$1 fault=$2
    shift 2
    cases=$((cases + 1))
    W32TM_EXPLAIN=1 "$program" "$@" >"$folder/out" 2>"$folder/fault" </dev/null
    printf '%s' "$explanation${fault:+$fault$'\n'}" | cmp -s - "$folder/fault" && return
    say "W32TM_EXPLAIN=1 $*: '$(cat "$folder/fault")', and not '$explanation' and '$fault'"
    failed=1
}
missing="No such file or directory (os error 2)"
# A service on a port on which nobody listens.
says 4 "w32tm: read fault" "" /resync "/computer:127.0.0.1:$port"
explains "w32tm: 127.0.0.1:$port: Connection refused (os error 111)"$'\n' "w32tm: read fault" /query /bits "/computer:127.0.0.1:$port"
explains "w32tm: $folder/missing: $missing"$'\n' "w32tm: read fault" /monitor "/config:$folder/missing"
explains "w32tm: $folder/missing/keeper: $missing"$'\n' "w32tm: disk fault" $alone "/keeper:$folder/missing/keeper"
explains "w32tm: $folder/settings: longer than 256 bytes"$'\n' "w32tm: disk fault" $alone "/keeper:$folder/settings"
explains $'w32tm: /dev/null: not a regular file\n' "w32tm: disk fault" $alone /keeper:/dev/null
# A keeper that another member holds: the lock is held by a shell for as long as the case takes.
exec {held}>>"$folder/keeper"
flock -n "$held" || die "the keeper is locked already"
explains "w32tm: $folder/keeper: locked by another process"$'\n' "w32tm: disk fault" $alone "$keeper"
exec {held}>&-
"$program" /dc:3 "$config" "/port:$port" >"$folder/first" &
wait_for_port $port
explains "w32tm: port $port: Address already in use (os error 98)"$'\n' "" /dc:1 "$config" "/port:$port"
wait $!
# A pipe of samples that nobody reads. The first correction finds that, and the reading after it fails.
mkfifo "$folder/fifo"
"$program" /dc:3 "$config" "/port:$port" >"$folder/first" &
wait_for_port $port
explains "w32tm: $folder/fifo: a pipe that nobody reads"$'\n' "w32tm: clock fault" \
    /member:3 "/config:$folder/member.conf" "$keeper" "/clock:$folder/fifo"
explains "" "" /replay "$member"

[ $failed = 0 ] && echo "$script: $cases cases, all as they should be" || say "$cases cases, not all as they should be"
exit $failed
