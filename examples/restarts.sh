#!/bin/bash
# Begins `/member` 200 times on one keeper, which is a file, and kills each run at a random moment. Each request that
# reaches the wire has to bear a count that no earlier one had, and the file has to stand for at least that count at each
# kill. A first run tells how long one takes to its first request. Most kills come within twice that.
# Usage: examples/restarts.sh [RUNS [SEED]]
# Needs python3.
. "$(dirname "$0")/prologue.sh"
command -v python3 >/dev/null || skip "no python3"
find_program
free_port
sed "s/:12300 /:$port /" examples/local/member.conf >"$folder/member.conf"
python3 examples/restarts.py "$program" "$port" "$folder" "${1:-200}" "${2:-1}"
