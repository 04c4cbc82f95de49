#!/bin/bash
# Ten days of a member in a world of its own: the program with sim.c preloaded, which has virtual time, a clock that is off
# and drifts, and servers with delay, loss and outages. Prints a table, a line for each scenario. No clock is read or set,
# and nothing leaves the process.
# Usage: examples/sim/run.sh [clock]. With `clock` the member is run with /clock:, and its samples steer the machine's clock.
# Needs a C compiler (CC in the environment, else cc). SIM_DAYS there is the number of days, else 10.
. "$(dirname "$0")/../prologue.sh"
compiler=${CC:-cc}
days=${SIM_DAYS:-10}
command -v "$compiler" >/dev/null || skip "no $compiler"
find_program
"$compiler" -O2 -shared -fPIC -o "$folder/sim.so" examples/sim/sim.c -ldl -lm || exit 1

# Settings with other polls and limits: $folder/NAME.conf.
settings() {
    cat >"$folder/$1.conf" <<END_OF_TEXT
Name=WS1
Role=Member
Rid=1103
account 1103 000102030405060708090a0b0c0d0e0f
computer DC1 10.0.0.1:123 S---
computer DC2 10.0.0.2:123 S---
computer DC3 10.0.0.3:123 S---
MinPollInterval=$2
MaxPollInterval=$3
MaxPosPhaseCorrection=$4
MaxNegPhaseCorrection=$4
END_OF_TEXT
}
settings usual 6 10 172800
settings narrow 6 10 1800
settings quick 0 0 172800

# One scenario: its name, the settings, the seconds of a receive without a datagram, the turns, and the words of the world
# (sim.c). A receive takes longer than the second that the program asks for, so that a day takes fewer turns.
scenario() {
    local name=$1 conf=$2 wait=$3 turns=$4 code fields
    shift 4
    rm -f "$folder/keeper" "$folder/row"
    SIM="wait=$wait $*" SIM_ROW=$folder/row LD_PRELOAD=$folder/sim.so "$program" \
        "/member:$turns" "/config:$folder/$conf.conf" "/keeper:$folder/keeper" /capture:/dev/null "${clock[@]}" >"$folder/report"
    code=$?
    if [ $code != 0 ] || [ ! -s "$folder/row" ]; then
        say "$name: /member ended with code $code"
        failed=1
        return
    fi
    read -ra fields <"$folder/row"
    row "$name" "${fields[@]}"
}
row() { printf '%-42s %10s %10s %6s %10s %10s %6s %5s %7s %7s\n' "$@"; }

scenarios() {
    local ten=$((days * 5400))
    echo "== $1"
    row "" before greatest hours "last 16" last moved steps changes refused
    scenario "10 ms off, asked each second for an hour" quick 1 7200 off=0.01 near=0.001
    scenario "10 ms off" usual 16 $ten off=0.01
    scenario "30 s off" usual 16 $ten off=30
    scenario "299 s off" usual 16 $ten off=-299
    scenario "an hour off" usual 16 $ten off=3600
    scenario "50 ppm of drift" usual 16 $ten off=0.01 drift=50
    scenario "so, and a third of the datagrams lost" usual 16 $ten off=0.01 drift=50 jitter=0.01 loss=0.3333
    scenario "so, and DC1 dies on day 2 to 4" usual 16 $ten off=0.01 drift=50 dies=1:86400:345600
    scenario "so, and DC1 is an hour ahead from day 2 on" narrow 16 $ten off=0.01 drift=50 lies=1:86400:1e9:3600
    scenario "so, and DC1 is 100 s ahead on day 2 to 4" usual 16 $ten off=0.01 drift=50 lies=1:86400:345600:100
    scenario "so, and DC1 has another key from day 2 on" usual 16 $ten off=0.01 drift=50 forges=1:86400:1e9
    scenario "30 s off, drift, loss, DC1 dies" usual 16 $ten off=30 drift=50 jitter=0.01 loss=0.3333 dies=1:86400:345600
}

clock=()
if [ "${1:-}" = clock ]; then
    touch "$folder/samples"
    clock=("/clock:$folder/samples")
    scenarios "with /clock: the machine's clock, steered by the samples, $days days"
else
    scenarios "without /clock: the member's own clock, $days days"
fi
exit $failed
