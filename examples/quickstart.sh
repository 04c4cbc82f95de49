#!/bin/bash
# A member keeps its time by a controller: starts `/dc` and `/member` on loopback, shows what both print, and reads the
# member's capture again by `/replay`. No clock of the machine is set, it ends by itself, and it leaves nothing but the
# program in examples/out/. The settings are those of examples/local/, on a free port.
#
# It takes the proved program where that is built, and else builds one without proof, which takes the Rattle kit and a
# minute or two. With --proved it proves and builds first: the better part of an hour on a machine that has kept nothing.
# Usage: examples/quickstart.sh [--proved]
. "$(dirname "$0")/prologue.sh"

# One line a minute: how many of these crates are proved. What the tool says is kept in a file.
prove() {
    local log=examples/out/prove.log tool crates ready left
    crates=$(crates_below)
    mkdir -p examples/out
    say "proving $(echo "$crates" | wc -l) crates; what rt says is kept in $log"
    (cd crates/w32tm && exec rt run -- "/show:$(printf '%096d' 0)") >"$log" 2>&1 &
    tool=$!
    while kill -0 $tool 2>/dev/null; do
        ready=0 left=
        for crate in $crates; do
            if [ -d "crates/$crate/out/rlib" ]; then ready=$((ready + 1)); else left="$left $crate"; fi
        done
        say "$(date +%H:%M) $ready proved or kept; left:${left:- none, it is being linked}"
        for _ in $(seq 60); do kill -0 $tool 2>/dev/null && sleep 1; done
    done
    wait $tool || die "the proof or the build failed: see $log"
}

case "${1:-}" in
--proved) is_current "$proved" || prove ;;
"") ;;
*) die "usage: examples/quickstart.sh [--proved]" ;;
esac
find_program
mkdir -p examples/out
if [ -n "${W32TM:-}" ]; then
    say "the program is $program, of which nothing is known here"
elif [ "$program" = "$proved" ]; then
    say "the program is proved: crates/w32tm/out/w32tm"
    ln -sf "$proved" examples/out/w32tm
else
    say "the program, ${program#"$PWD"/}, is NOT proved; this proves and builds it: examples/quickstart.sh --proved"
fi

port=12299
free_port
for text in dc member; do sed "s/:12300 /:$port /" "examples/local/$text.conf" >"$folder/$text.conf"; done
cd "$folder" || exit 1

# Shows a command, and carries it out.
run() {
    echo "\$ w32tm $*"
    "$program" "$@"
}

# A turn takes a datagram, or ends after a second without one.
echo "\$ w32tm /dc:6 /config:dc.conf /port:$port &"
"$program" /dc:6 /config:dc.conf "/port:$port" >dc &
controller=$!
wait_for_port $port
run /member:5 /config:member.conf /keeper:keeper /capture:capture >report
code=$?
cat report

echo "\$ wait"
wait "$controller"
dc_code=$?
cat dc

run /replay /config:member.conf /capture:capture >replayed
replay_code=$?
cat replayed

# The capture gives the report again: all lines but that of the link, and but the line that shows the command.
lines() { sed '1d; /^link /d' "$1"; }
if [ $code != 0 ] || [ $dc_code != 0 ] || [ $replay_code != 0 ]; then
    die "/member ended with code $code, /dc with $dc_code and /replay with $replay_code"
fi
if ! grep -q '^moved ' report || ! cmp -s <(lines report) <(lines replayed); then
    die "no reply was accepted, or the capture gave another report"
fi
