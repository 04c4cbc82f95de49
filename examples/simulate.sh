#!/bin/bash
# A member beside a hostile net, in a simulated world: runs `/simulate` from a seed, and shows its summary. A second run has to
# say the same, and `/replay` of the capture has to count the same. No clock is read or set, no port is bound, and nothing is
# left but the program in examples/out/.
#
# It takes the proved program where that is built, and else builds one without proof, which takes the Rattle kit and a minute
# or two.
# Usage: examples/simulate.sh [SEED [N]]
. "$(dirname "$0")/prologue.sh"
seed=${1:-1103}
count=${2:-2000}
find_program
cd "$folder" || exit 1

# The member of the world.
cat >world.conf <<'END'
Name=WS1
Role=Member
Rid=1103
MaxPosPhaseCorrection=172800
MaxNegPhaseCorrection=172800
MaxAllowedPhaseOffset=300
MinPollInterval=0
MaxPollInterval=4
account 1103 000102030405060708090a0b0c0d0e0f
computer DC1 10.0.0.1:123 S---
END

echo "\$ w32tm /simulate:$seed:$count /capture:capture"
"$program" "/simulate:$seed:$count" /capture:capture >summary || die "it ended with code $?"
cat summary

"$program" "/simulate:$seed:$count" /capture:again >second || die "the second run ended with code $?"
cmp -s summary second && cmp -s capture again || die "the second run said something else"

echo "\$ w32tm /replay /config:world.conf /capture:capture | tail -n 1"
"$program" /replay /config:world.conf /capture:capture >replayed || die "/replay ended with code $?"
tail -n 1 replayed
[ "total $(sed -n 2p summary)" = "$(tail -n 1 replayed)" ] || die "the capture counts otherwise"
