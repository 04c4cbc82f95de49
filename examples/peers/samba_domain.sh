#!/bin/bash
# A real Samba domain, and the settings that examples/samba/ takes out of it: a domain controller is made and runs, one
# computer joins, accounts are made, changed and disabled. Then `controller_settings` has to write the keys that Samba's
# own tools show, `/dc` with that text has to answer the member whose text `member_settings` wrote, and Samba's own
# signing service has to sign the same replies to the same bytes. At last what is wrong has to be said, and leave the old
# text as it was.
#
# All of it is in namespaces of its own (network, mounts, names, processes), which end with it. The machine's files are
# read-only there, and nothing is left behind.
# Usage: examples/peers/samba_domain.sh, as root. Skipped without Debian's samba, samba-ad-provision, winbind, smbclient,
# krb5-user, bind9-dnsutils, ldb-tools, python3-samba and python3-dnspython. chronyd is told the member's samples where
# it, socat and the program's /clock: are.
. "$(dirname "$0")/../prologue.sh"
samba=$PWD/examples/samba
peers=$PWD/examples/peers
[ "$(id -u)" = 0 ] || skip "it isn't run by root"
for tool in samba samba-tool net pdbedit klist dig ldbadd ldbmodify smbclient ip unshare setpriv; do
    command -v $tool >/dev/null || skip "no $tool"
done
[ -d /usr/share/samba/setup ] || skip "no samba-ad-provision"
/usr/bin/python3 -c 'import samba.samdb, tdb, dns.resolver' 2>/dev/null || skip "no python3-samba or python3-dnspython"
find_program
if [ "${1:-}" != inside ]; then
    unshare -mnupi true 2>/dev/null || skip "no namespaces here"
    chmod 711 "$folder"
    TMPDIR=$folder W32TM=$program unshare -mnupi --fork --kill-child --mount-proc "$script_path" inside
    exit
fi

# What has keys gets a mode of its own. Samba serves pipes as another user, who has to come through to them.
umask 022
unset KRB5CCNAME KRB5_KTNAME
# Shows a command, and carries it out. Its output is kept in $folder/said.
run() {
    local shown="$*" code
    for path in "$folder/" "$samba/" "${program%/*}/"; do shown=${shown//"$path"/}; done
    echo "\$ $shown"
    "$@" >"$folder/said" 2>&1
    code=$?
    sed "s|$folder/||g" "$folder/said"
    return $code
}

# A machine of its own: an address for the controller, one for the member, and the files that name them.
instead_of() {
    local file
    file=$(readlink -m "$1")
    mkdir -p "$(dirname "$file")"
    [ -e "$file" ] || : >"$file"
    cat >"$folder/$(basename "$1")"
    chmod 644 "$folder/$(basename "$1")"
    mount --bind "$folder/$(basename "$1")" "$file"
}
hostname dc1
ip link set lo up
for address in 192.0.2.1 192.0.2.2; do ip addr add $address/24 dev lo; done
mount -t tmpfs none /run
mkdir -m 755 /run/samba
chmod 711 "$folder"
printf 'nameserver 192.0.2.1\nsearch example.test\n' | instead_of /etc/resolv.conf
printf '127.0.0.1 localhost\n192.0.2.1 dc1.example.test dc1\n' | instead_of /etc/hosts
cat >"$folder/krb5.conf" <<END_OF_TEXT
[libdefaults]
    default_realm = EXAMPLE.TEST
    dns_lookup_realm = false
    dns_lookup_kdc = true
END_OF_TEXT
export KRB5_CONFIG=$folder/krb5.conf KRB5_KTNAME=$folder/machine.keytab
# From here on no file of the machine can be written, whatever Samba's tools do.
mount --bind "${folder%/*}" "${folder%/*}"
mount -o remount,bind,ro /

# The domain and its controller.
make_domain() {
    : >"$folder/none.conf"
    mkdir -m 755 "$folder/dc1"
    samba-tool domain provision --configfile="$folder/none.conf" --targetdir="$folder/dc1" --realm=EXAMPLE.TEST \
        --domain=EXAMPLE --server-role=dc --host-name=dc1 --host-ip=192.0.2.1 --dns-backend=SAMBA_INTERNAL \
        --option="interfaces=192.0.2.1/24" --option="bind interfaces only=yes" >"$folder/provision.log" 2>&1 ||
        die "samba-tool domain provision: $(tail -n 1 "$folder/provision.log")"
    chmod 600 "$folder/provision.log"
    dc1=$folder/dc1/etc/smb.conf
    # It would ask itself about all other names.
    sed -i '/dns forwarder/d' "$dc1"
    sed -i "/^\[global\]/a pid directory = $folder/dc1/run\nncalrpc dir = $folder/dc1/run/ncalrpc\n\
ntp signd socket directory = $folder/dc1/ntp_signd\nlog file = $folder/dc1/log.%m\ntls enabled = no" "$dc1"
    mkdir -p "$folder/dc1/run"
}
start_samba() {
    samba -s "$dc1" -F --no-process-group -M single --debug-stdout >"$folder/samba.log" 2>&1 </dev/null &
    signd=$folder/dc1/ntp_signd/socket
    is_up() {
        [ -S "$signd" ] && [ -n "$(dig +short +tries=1 +time=1 SRV _ldap._tcp.dc._msdcs.example.test)" ] &&
            smbclient -N -L 192.0.2.1 -s "$folder/none.conf"
    }
    wait_until 60 is_up || die "samba doesn't answer: $(tail -n 2 "$folder/samba.log")"
}

# The member: its own folder of Samba's, and a keytab.
join_member() {
    ws1=$folder/ws1/smb.conf
    mkdir -p "$folder"/ws1/{private,state,cache,lock,run}
    cat >"$ws1" <<END_OF_TEXT
[global]
    netbios name = WS1
    realm = EXAMPLE.TEST
    workgroup = EXAMPLE
    security = ads
    interfaces = 192.0.2.2/24
    bind interfaces only = yes
    private dir = $folder/ws1/private
    state directory = $folder/ws1/state
    cache directory = $folder/ws1/cache
    lock directory = $folder/ws1/lock
    pid directory = $folder/ws1/run
    ncalrpc dir = $folder/ws1/run/ncalrpc
    log file = $folder/ws1/log
END_OF_TEXT
    (
        umask 077
        printf 'username = Administrator\npassword = %s\ndomain = EXAMPLE\n' \
            "$(sed -n 's/.*Admin password: *//p' "$folder/provision.log")" >"$folder/auth"
    )
    run net ads join -s "$ws1" -A "$folder/auth" --no-dns-updates || die "the member didn't join"
    run net ads changetrustpw -s "$ws1" || fail "the member's password wasn't changed"
}

# An account as LDIF, by the database itself: its name in base64, its userAccountControl, and its password where it has one.
add_account() {
    {
        printf 'dn: CN=%s,CN=Computers,DC=example,DC=test\nobjectClass: %s\n' "$1" "$2"
        printf 'sAMAccountName:: %s\nuserAccountControl: %s\n' "$(printf %s "$3" | base64 -w 0)" "$4"
        [ -z "${5:-}" ] || printf 'clearTextPassword:: %s\n' "$(printf %s "$5" | iconv -t UTF-16LE | base64 -w 0)"
    } | ldbadd -H "$folder/dc1/private/sam.ldb" --relax --controls=local_oid:1.3.6.1.4.1.7165.4.3.23:0 >"$folder/said" 2>&1 ||
        fail "account $1: $(cat "$folder/said")"
}
odd="it's odd \$"
make_accounts() {
    local computer
    for computer in WS2 WS3; do
        run samba-tool computer create $computer -s "$dc1" || fail "no account $computer"
        samba-tool user setpassword $computer'$' --random-password -s "$dc1" >/dev/null || fail "no password of $computer"
    done
    samba-tool user enable 'WS2$' -s "$dc1" >/dev/null || fail "WS2 wasn't enabled"
    samba-tool user disable 'WS3$' -s "$dc1" >/dev/null || fail "WS3 wasn't disabled"
    add_account NOKEY computer 'NOKEY$' 4128
    add_account ODD computer "$odd" 4096 "$(head -c 15 /dev/urandom | base64)"
    add_account OTHER user 'OTHER$' 2048 "$(head -c 15 /dev/urandom | base64)"
}

write_controller() { run "$samba/controller_settings" --program "$program" --configfile "$dc1" "$folder/dc.conf"; }
write_member() { run "$samba/member_settings" --program "$program" --configfile "$ws1" "$@"; }
key_of() { sed -n "s/^account $1 \([0-9a-f]*\).*/\1/p" "${2:-$folder/dc.conf}"; }
rid_of() {
    ldbsearch -H "$folder/dc1/private/sam.ldb" "(sAMAccountName=$1)" objectSid 2>/dev/null | sed -n 's/^objectSid: .*-//p'
}

# Each key beside what two tools of Samba's own say. pdbedit lists no trust accounts.
compare_keys() {
    local account rid key shown listed
    for account in 'DC1$' 'WS1$' 'WS2$' "$odd" 'OTHER$'; do
        rid=$(rid_of "$account")
        key=$(key_of "$rid")
        shown=$(samba-tool user getpassword "$account" --attributes=unicodePwd -s "$dc1" 2>/dev/null |
            sed -n 's/^unicodePwd:: //p' | base64 -d | od -An -tx1 | tr -d ' \n')
        [ -n "$key" ] && [ "$key" = "$shown" ] || fail "$account: samba-tool user getpassword shows another key"
        listed=$(pdbedit -Lw -s "$dc1" | awk -F: -v name="$account" '$1 == name { print tolower($4) }')
        if [ -n "$listed" ] || [ "$account" != 'OTHER$' ]; then
            [ "$key" = "$listed" ] || fail "$account: pdbedit -Lw shows another key"
            echo "$account, RID $rid: the key that samba-tool user getpassword and pdbedit -Lw show"
        else
            echo "$account, RID $rid: the key that samba-tool user getpassword shows"
        fi
    done
    [ "$(stat -c %a "$folder/dc.conf")" = 600 ] || fail "dc.conf has the mode $(stat -c %a "$folder/dc.conf")"
    [ -z "$(key_of "$(rid_of 'WS3$')")$(key_of "$(rid_of 'NOKEY$')")" ] || fail "an account has a line that may have none"
}
# Two runs differ by what changed alone.
compare_runs() {
    cp "$folder/dc.conf" "$folder/before"
    write_controller && grep -q ': unchanged$' "$folder/said" || fail "a second run wrote another text"
    samba-tool user setpassword 'WS2$' --random-password -s "$dc1" >/dev/null
    write_controller || fail "no text after a change of a password"
    diff "$folder/before" "$folder/dc.conf" | cut -c 1-30 >"$folder/said"
    sed 's/\(account [0-9]*\) .*/\1 ../' "$folder/said"
    [ "$(grep -c '^[<>]' "$folder/said")" = 2 ] || fail "more than the one line of WS2 changed"
    grep -q "^account $(rid_of 'WS2$') [0-9a-f]* $(key_of "$(rid_of 'WS2$')" "$folder/before")$" "$folder/dc.conf" ||
        fail "the key before the change isn't the previous one"
}

# A run of the member with a text: each request has to be answered and accepted.
run_member() {
    "$program" /dc:20 "/config:$folder/dc.conf" >"$folder/dc" 2>&1 &
    wait_for_port 123 || fail "/dc didn't open its port"
    run "$program" /member:4 "/config:$1" "/keeper:$folder/$2.keeper"
    grep -q '^total sent=\([1-9][0-9]*\) moved=\1 refused=0$' "$folder/said" || fail "not each reply was accepted"
    kill $! 2>/dev/null
    wait $! 2>/dev/null
}
members() {
    printf 'MinPollInterval=0\nMaxPollInterval=0\n' >"$folder/own_lines"
    write_member --with "$folder/own_lines" "$folder/ws1.conf" || fail "member_settings wrote nothing"
    grep '^computer' "$folder/ws1.conf"
    [ "$(grep '^account' "$folder/ws1.conf")" = "$(grep "^account $(rid_of 'WS1$') " "$folder/dc.conf")" ] ||
        fail "the member's keys aren't the controller's"
    run_member "$folder/ws1.conf" ws1
    run samba-tool domain exportkeytab "$folder/ws2.keytab" --principal='WS2$' -s "$dc1" || fail "no keytab"
    write_member --with "$folder/own_lines" --keytab "$folder/ws2.keytab" "$folder/ws2.conf" ||
        fail "member_settings made nothing of a keytab"
    run_member "$folder/ws2.conf" ws2
}
compare_signatures() {
    local account
    "$program" /dc:60 "/config:$folder/dc.conf" >"$folder/dc" 2>&1 &
    wait_for_port 123 || fail "/dc didn't open its port"
    for account in 'DC1$' 'WS1$' 'WS2$' "$odd" 'OTHER$' 'WS3$' 'NOKEY$'; do
        python3 "$peers/ask_signd.py" 123 "$signd" "$(rid_of "$account")" || fail "$account: ntp_signd signs otherwise"
    done
    kill $! 2>/dev/null
    wait $! 2>/dev/null
}

# chronyd beside the member, which sets nothing here, but says that it has the source.
tell_chronyd() {
    command -v chronyd >/dev/null && command -v socat >/dev/null || { echo "skipped: no chronyd or no socat"; return; }
    "$program" /member:1 /config:/dev/null "/keeper:$folder/none" "/clock:$folder/none" >/dev/null 2>&1
    [ $? != 1 ] || { echo "skipped: this program has no /clock:"; return; }
    local dc chronyd socat
    "$program" /dc:60 "/config:$folder/dc.conf" >/dev/null 2>&1 &
    dc=$!
    chronyd -U -u "$(id -un)" -x -d "pidfile $folder/chronyd.pid" "port 0" "bindcmdaddress /" "cmdport 323" \
        "refclock SOCK $folder/sock refid AD poll 0 filter 1 precision 1e-4 delay 1e-3" >"$folder/chronyd" 2>&1 &
    chronyd=$!
    wait_until 60 test -S "$folder/sock" || fail "chronyd: $(tail -n 1 "$folder/chronyd")"
    mkfifo "$folder/fifo"
    socat -u -b40 "PIPE:$folder/fifo,rdwr" "UNIX-SENDTO:$folder/sock" &
    socat=$!
    is_reading() { find "/proc/$socat/fd" -lname "$folder/fifo" | grep -q .; }
    wait_until 60 is_reading || fail "socat doesn't read"
    run "$program" /member:20 "/config:$folder/ws1.conf" "/keeper:$folder/ws1.keeper" "/clock:$folder/fifo"
    run chronyc -h 127.0.0.1 sources
    grep -q '^#\* AD ' "$folder/said" || fail "chronyd hasn't taken the member's samples"
    kill $socat $chronyd $dc 2>/dev/null
    wait $socat $chronyd $dc 2>/dev/null
}

# A wrong case: code 1, one line, and the text and its folder as they were.
wrong() {
    local name=$1 text=$2 code
    shift 2
    cp -p "$folder/texts/$text" "$folder/old"
    ls -A "$folder/texts" >"$folder/listed"
    "$@" "$folder/texts/$text" >"$folder/out" 2>"$folder/fault" </dev/null
    code=$?
    echo "$name: code $code, $(sed "s|$folder/||g" "$folder/fault")"
    [ $code = 1 ] && [ "$(wc -l <"$folder/fault")" = 1 ] || fail "$name: $(cat "$folder/fault")"
    cmp -s "$folder/old" "$folder/texts/$text" && ls -A "$folder/texts" | cmp -s - "$folder/listed" ||
        fail "$name: the old text was touched"
}
locked() {
    local file=$1 lock
    shift
    /usr/bin/python3 -c 'import os, sys, tdb, time
kept = tdb.open(sys.argv[1], 0, 0, os.O_RDWR)
kept.lock_all()
open(sys.argv[2], "w").close()
time.sleep(600)' "$file" "$folder/is_locked" &
    lock=$!
    wait_until 60 test -e "$folder/is_locked" || fail "$file wasn't locked"
    wrong "$@"
    kill $lock 2>/dev/null
    wait $lock 2>/dev/null
    rm -f "$folder/is_locked"
}
without_samba() { unshare -m sh -c 'mount -t tmpfs none /usr/lib/python3/dist-packages && exec "$@"' sh "$@"; }
change() {
    printf 'dn: %s\nchangetype: modify\nreplace: %s\n%s: %s\n' "$1" "$2" "$2" "$3" |
        ldbmodify -H "$folder/dc1/private/sam.ldb" --relax >"$folder/said" 2>&1 || fail "$1: $(cat "$folder/said")"
}
bad_input() {
    local controller member server
    controller=("$samba/controller_settings" --program "$program" --configfile "$dc1")
    member=("$samba/member_settings" --program "$program" --configfile "$ws1")
    mkdir "$folder/texts"
    cp -p "$folder/dc.conf" "$folder/ws1.conf" "$folder/texts/"
    samba-tool user setpassword 'WS2$' --random-password -s "$dc1" >/dev/null
    echo "account 7" >"$folder/bad_line"
    for text in dc.conf ws1.conf; do
        [ $text = dc.conf ] && words=("${controller[@]}") || words=("${member[@]}")
        mkdir -p -m 755 "$folder/nobody" && cp "$samba"/*_settings "$samba"/settings_text.py "$folder/nobody/" &&
            chmod 755 "$folder"/nobody/*
        wrong "not root" $text setpriv --reuid 65534 --regid 65534 --clear-groups "$folder/nobody/$(basename "${words[0]}")"
        wrong "no Samba" $text without_samba "${words[@]}"
        wrong "no smb.conf" $text "${words[@]}" --configfile "$folder/missing"
        wrong "a bad line of one's own" $text "${words[@]}" --with "$folder/bad_line"
        wrong "no program" $text "${words[@]}" --program "$folder/missing"
    done
    locked "$folder/dc1/private/sam.ldb" "a locked database" dc.conf "${controller[@]}" --wait 5
    locked "$folder/ws1/private/secrets.tdb" "locked secrets" ws1.conf "${member[@]}" --wait 5
    wrong "not joined" ws1.conf "${member[@]}" --configfile "$folder/none.conf" --keytab "$folder/missing"
    wrong "no controller there" dc.conf "${controller[@]}" --configfile "$ws1"
    server="CN=DC1,CN=Servers,CN=Default-First-Site-Name,CN=Sites,CN=Configuration,DC=example,DC=test"
    change "$server" dNSHostName 'dc_1 "odd".example.test'
    wrong "a controller with an odd name" dc.conf "${controller[@]}"
    change "$server" dNSHostName dc1.example.test
    change "CN=DC1,OU=Domain Controllers,DC=example,DC=test" userAccountControl 532482
    wrong "the controller itself is disabled" dc.conf "${controller[@]}"
    change "CN=DC1,OU=Domain Controllers,DC=example,DC=test" userAccountControl 532480
}

# What stands in the process list while the scripts run. No key may be there, nor in what they printed.
watch_processes() {
    while :; do
        cat /proc/[0-9]*/cmdline 2>/dev/null | tr '\0' ' '
        sleep 0.02
    done >"$folder/processes"
}
no_key_was_seen() {
    sed -n 's/^account [0-9]* //p' "$folder"/*.conf "$folder/before" | tr ' ' '\n' | sort -u >"$folder/keys"
    for script in controller_settings member_settings; do
        grep -q "$script" "$folder/processes" || fail "$script was never seen in the process list"
    done
    grep -q -F -f "$folder/keys" "$folder/processes" && fail "a key stood in the process list"
    grep -q -F -f "$folder/keys" "$folder/shown" && fail "a key was printed"
    echo "$(wc -l <"$folder/keys") keys: none was in the process list or was printed"
}

{
    echo "== a domain, its controller and a member"
    make_domain
    start_samba
    join_member
    make_accounts
    watch_processes &
    watcher=$!
    echo "== the controller's text"
    write_controller || fail "controller_settings wrote nothing"
    grep '^computer' "$folder/dc.conf"
    compare_keys
    compare_runs
    echo "== members"
    members
    echo "== the signatures of Samba's ntp_signd"
    compare_signatures
    echo "== the member's chronyd"
    tell_chronyd
    echo "== what is wrong"
    bad_input
    kill $watcher
    echo "== keys that were seen"
} > >(tee "$folder/shown") 2>&1
# The copy of what was printed is whole once it has the last line.
wait_until 60 grep -q '^== keys that were seen$' "$folder/shown"
no_key_was_seen
[ $failed = 0 ] && echo "samba_domain.sh: all agree"
exit $failed
