# shellcheck shell=bash
# What the scripts under examples/ and bench/ share. They read this file; it is no program of its own.
#
# It goes to the top of the repository, makes a folder that is removed at the end ($folder), and has functions for the
# program and for ports. W32TM=PATH in the environment names the program; else it is the proved one where that is built
# and up to date, else one that `rt try` builds without proof.
set -u
unset W32TM_EXPLAIN
script=$(basename "$0")
script_path=$(realpath "$0")
[ -z "${W32TM:-}" ] || W32TM=$(realpath "$W32TM")
cd "$(dirname "${BASH_SOURCE[0]}")/.." || exit 1
PATH=$PATH:/usr/sbin:/sbin
proved=$PWD/crates/w32tm/out/w32tm
unproved=$PWD/examples/out/w32tm

say() { echo "$script: $*" >&2; }
die() { say "$*"; exit 1; }
skip() { echo "$script: skipped, $*"; exit 0; }

folder=$(mktemp -d) || exit 1
at_end() { :; }
trap 'jobs -pr | xargs -r kill 2>/dev/null; at_end; rm -rf "$folder"' EXIT
trap 'exit 130' INT TERM

# What went wrong is said, and told by the exit code at the end.
failed=0
fail() {
    say "$*"
    failed=1
}

# Ends processes that the script began.
stop() { kill "$@" 2>/dev/null; wait "$@" 2>/dev/null; }

# Tries a command each quarter of a second, for so many seconds. What it prints is dropped.
wait_until() {
    local quarters=$(($1 * 4))
    shift
    for _ in $(seq $quarters); do
        "$@" >/dev/null 2>&1 && return 0
        sleep 0.25
    done
    return 1
}

# The crates on which the program stands, itself too.
crates_below() {
    awk -F ': *' '!/^#/ { below[$1] = $2 }
        function visit(name, list, i, n) {
            if (seen[name]++ || !(name in below)) return
            print name
            n = split(below[name], list, " ")
            for (i = 1; i <= n; i++) visit(list[i])
        }
        END { visit("w32tm") }' crates.txt
}

# A program is up to date where it is there and no source of these crates is newer.
is_current() {
    local sources
    mapfile -t sources < <(crates_below | sed 's|.*|crates/&/src|')
    [ -x "$1" ] && [ -z "$(find "${sources[@]}" -name '*.rt' -newer "$1" -print -quit)" ]
}

# A UDP port is free where the kernel's list doesn't have it.
is_taken() { grep -q "$(printf ':%04X ' "$1")" /proc/net/udp; }
free_port() {
    port=$((${port:-12300} + 1))
    while is_taken $port; do port=$((port + 1)); done
}
wait_for_port() {
    for _ in $(seq 200); do
        is_taken "$1" && return 0
        sleep 0.05
    done
    return 1
}

# The same of TCP: a port is taken where any connection has it, and open where one is accepted.
has_calls() { grep -q "^ *[0-9]*: [0-9A-F]*$(printf ':%04X' "$1") [0-9A-F:]* ${2:-}" /proc/net/tcp; }
free_calls_port() {
    calls_port=$((${calls_port:-49160} + 1))
    while has_calls $calls_port; do calls_port=$((calls_port + 1)); done
}
wait_for_calls() { wait_until 20 has_calls "$1" "0A "; }

# Begins the script again in a network of its own, which has nothing but a loopback, where the machine allows that. Its
# first word is then `inside`.
in_own_network() {
    if [ "${1:-}" = inside ]; then
        ip link set lo up || exit 1
    elif command -v ip >/dev/null && unshare -rn ip link set lo up 2>/dev/null; then
        W32TM=$program unshare -rn "$script_path" inside
        exit
    fi
}

# `rt try` keeps a program only while it runs. So it is told to run a controller, and the program is copied meanwhile.
build_unproved() {
    local log=$PWD/examples/out/build.log config=$PWD/examples/local/dc.conf tool made
    command -v rt >/dev/null || die "no program is built here, and the Rattle kit isn't on the PATH (rt)"
    mkdir -p examples/out "$folder/try"
    say "building the program by rt try, a minute or two"
    free_port
    (cd crates/w32tm && TMPDIR=$folder/try exec rt try -- /dc:50 "/config:$config" "/port:$port") >"$log" 2>&1 &
    tool=$!
    until is_taken $port; do
        kill -0 $tool 2>/dev/null || die "rt try built nothing; what it said is in examples/out/build.log"
        sleep 0.1
    done
    made=$(find "$folder/try" -name program -type f | head -n 1)
    cp "$made" "$unproved.new" || die "the program of rt try can't be copied"
    chmod 755 "$unproved.new"
    mv -f "$unproved.new" "$unproved"
    kill $tool
    wait $tool 2>/dev/null
}

# Finds the program, as $program, or builds one.
find_program() {
    program=${W32TM:-$proved}
    [ -n "${W32TM:-}" ] && { [ -x "$program" ] || die "W32TM=$program is no program"; return; }
    is_current "$proved" && return
    program=$unproved
    is_current "$unproved" || build_unproved
}

# A built and proved program of this crate, as $program: what is measured is never an unproved one.
find_proved() {
    program=$PWD/crates/$1/out/$1
    [ "$1" = w32tm ] && program=${W32TM:-$program}
    [ -x "$program" ] || die "build the program first: (cd crates/$1 && rt run)"
}
