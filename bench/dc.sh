#!/bin/bash
# What `/dc` makes of a load of requests on loopback, beside a loop that sends each datagram back and, where it is
# installed, chronyd: requests a second, and time of the processor for each, which a busy machine changes least. 32
# requests are on the way at any time. Of each kind several runs are made in turn, and the best counts.
# Then the same of signed requests, each for another account, with 10 accounts and with 100,000; the system calls of a
# request; and the memory after many and after few.
# Usage: bench/dc.sh [REQUESTS [RUNS]]; 100,000 and 5 where they aren't given.
# Needs gcc and the proved program: `rt run` in crates/w32tm. Calls are counted where strace is. It ends by itself.
. "$(dirname "$0")/../examples/prologue.sh"
find_proved w32tm
requests=${1:-100000}
runs=${2:-5}
window=32
command -v gcc >/dev/null || skip "no gcc"
for tool in dc_load udp_echo; do
    gcc -O2 -Wall -o "$folder/$tool" "bench/$tool.c" || exit 1
done

# Two processors, one for the server and one for the load, where there are two and taskset.
server_on=() load_on=()
if [ "$(nproc)" -ge 2 ] && command -v taskset >/dev/null; then
    server_on=(taskset -c $(($(nproc) - 1)))
    load_on=(taskset -c $(($(nproc) - 2)))
fi

cat >"$folder/dc.conf" <<END_OF_TEXT
Name=DC1
Role=Pdc
Rid=1001
account 1001 00112233445566778899aabbccddeeff
account 1103 000102030405060708090a0b0c0d0e0f
END_OF_TEXT
head -c 48 examples/request.bin >"$folder/48"
cp examples/request.bin "$folder/68"
{
    head -c 48 examples/request.bin
    printf '\x4f\x04\x00\x00\x00\x00\x01\x00'
    head -c 64 /dev/zero
} >"$folder/120"

# Starts a server on $port for so many turns, as $server.
serve() {
    free_port
    case $1 in
    echo) "${server_on[@]}" "$folder/udp_echo" "$port" "$2" & ;;
    dc) "${server_on[@]}" "$program" "/dc:$2" "/config:$folder/${conf:-dc.conf}" "/port:$port" >"$folder/dc" & ;;
    strace)
        strace -qq -c -o "$folder/calls" \
            "$program" "/dc:$2" "/config:$folder/dc.conf" "/port:$port" >"$folder/dc" &
        ;;
    chronyd)
        "${server_on[@]}" chronyd -U -u "$(id -un)" -x -d "pidfile $folder/pid" "cmdport 0" "bindcmdaddress /" \
            "port $port" "bindaddress 127.0.0.1" "allow 127.0.0.1" "local stratum 1" >"$folder/chronyd" 2>&1 &
        ;;
    esac
    server=$!
    wait_for_port $port || die "$1 opened no port"
}

# One run: a server, so many requests of so many bytes, and the four numbers of dc_load as $wall, $took, $memory, $lost.
# A fourth word is how many accounts are asked for, as $conf has them.
run() {
    serve "$1" $(($3 + 1))
    # The port is there before the accounts are read.
    [ -z "${4:-}" ] || sleep 0.5
    "${load_on[@]}" "$folder/dc_load" "$port" "$server" "$3" $window "$folder/$2" ${4:+"$4"} >"$folder/numbers" || exit 1
    read -r wall took memory lost <"$folder/numbers"
    [ "$1" = chronyd ] && kill "$server"
    wait "$server"
    [ "$lost" = 0 ] || die "$1 left $lost requests of $2 bytes without a reply"
}

declare -A least_wall least_took
servers=(echo dc)
command -v chronyd >/dev/null && servers+=(chronyd)
echo "load of the machine before: $(cut -d ' ' -f 1 /proc/loadavg)"
for _ in $(seq "$runs"); do
    for name in "${servers[@]}"; do
        for bytes in 48 68 120; do
            # chronyd answers no signed request whose own digest is zero, as these are, and knows none of 120 bytes.
            [ "$name" = chronyd ] && [ $bytes != 48 ] && continue
            run $name $bytes "$requests"
            kind=$name$bytes
            if [ "$wall" -lt "${least_wall[$kind]:-$((wall + 1))}" ]; then least_wall[$kind]=$wall; fi
            if [ "$took" -lt "${least_took[$kind]:-$((took + 1))}" ]; then least_took[$kind]=$took; fi
        done
    done
done
for name in "${servers[@]}"; do
    for bytes in 48 68 120; do
        kind=$name$bytes
        [ -n "${least_wall[$kind]:-}" ] && echo "$name $bytes ${least_wall[$kind]} ${least_took[$kind]}"
    done
done | awk -v n="$requests" '
    { took[$1, $2] = $4 / n; wall[$1, $2] = $3 / n; kinds[NR] = $1 SUBSEP $2 }
    END {
        for (i = 1; i <= NR; i++) {
            split(kinds[i], kind, SUBSEP)
            printf "%-7s %3d bytes: %7.0f requests/s, %5.2f us of the processor each",
                kind[1], kind[2], 1e9 / wall[kinds[i]], took[kinds[i]] / 1000
            if (kind[1] != "echo") printf "; the echo loop takes %.2f of that", took["echo", kind[2]] / took[kinds[i]]
            print ""
        }
        printf "dc: 68 bytes take %.2f us of the processor more than 48, and 120 bytes %.2f us\n",
            (took["dc", 68] - took["dc", 48]) / 1000, (took["dc", 120] - took["dc", 48]) / 1000
    }'

# Ten accounts and a hundred thousand, in turn.
for accounts in 10 100000; do
    {
        printf 'Name=DC1\nRole=Pdc\nRid=1000\n'
        awk -v n=$accounts 'BEGIN { for (i = 0; i < n; i++) printf "account %d %032x\n", 1000 + i, i }'
    } >"$folder/$accounts.conf"
done
for _ in $(seq "$runs"); do
    for accounts in 10 100000; do
        conf=$accounts.conf
        run dc 68 "$requests" $accounts
        if [ "$took" -lt "${least_took[$conf]:-$((took + 1))}" ]; then least_took[$conf]=$took; fi
    done
done
conf=
awk -v n="$requests" -v few="${least_took[10.conf]}" -v many="${least_took[100000.conf]}" 'BEGIN {
    printf "dc: 68 bytes with 10 accounts take %.2f us of the processor, with 100,000 %.2f us, %.2f times that\n",
        few / n / 1000, many / n / 1000, many / few
}'

# What 2,000 requests more ask of the kernel more.
if command -v strace >/dev/null; then
    run strace 68 1000
    cp "$folder/calls" "$folder/fewer"
    run strace 68 3000
    awk -v what="2000 requests" -f bench/calls.awk "$folder/fewer" "$folder/calls"
else
    echo "system calls: skipped, no strace"
fi

run dc 120 1000
fewer=$memory
run dc 120 100000
echo "memory at most: $fewer kB after 1000 turns, $memory kB after 100000"
tail -n 3 "$folder/dc"
