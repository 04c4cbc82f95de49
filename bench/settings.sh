#!/bin/bash
# What it costs to read a long settings text: 100,000 accounts in the order of their RIDs, in the opposite order and in
# none, twice as many, 100,000 computers, and the longest text, of 16,777,216 bytes. Beside it `wc -l`, and a reader in
# Python that keeps the accounts in a dict. Before that, what is answered: a text with a RID twice is bad at its last
# line, whether that repeats the first, a middle or the last one.
# Times are those of the processor, the least of seven runs; the load of the machine is printed with them.
# Usage: bench/settings.sh
# Needs GNU time and the built program: `rt run` in crates/bench_settings. The reader in Python is left out where there
# is no python3.
. "$(dirname "$0")/../examples/prologue.sh"
find_proved bench_settings
[ -x /usr/bin/time ] || skip "no /usr/bin/time"

# Settings without accounts and computers: three lines.
head_lines() { printf 'Name=DC1\nRole=Controller\nRid=1000\n'; }

# So many account lines, from RID 1000 on: rising, falling or shuffled.
accounts() {
    awk -v n="$1" -v order="$2" 'BEGIN {
        for (i = 0; i < n; i++) place[i] = order == "falling" ? n - 1 - i : i
        srand(7)
        for (i = n - 1; order == "shuffled" && i > 0; i--) {
            j = int(rand() * (i + 1)); kept = place[i]; place[i] = place[j]; place[j] = kept
        }
        for (i = 0; i < n; i++) printf "account %d %032x\n", 1000 + place[i], i
    }'
}

# So many computers, all with names of their own.
computers() {
    awk -v n="$1" 'BEGIN {
        for (i = 0; i < n; i++) printf "computer DC%d 10.%d.%d.%d:123 S---\n", i, i / 62500, i / 250 % 250, i % 250 + 1
    }'
}

# The processor's time of a command in seconds, the least of seven runs.
seconds() {
    local TIMEFORMAT='%U %S'
    for _ in $(seq 7); do
        { time "$@" >/dev/null; } 2>&1 | tail -n 1
    done | awk '{ s = $1 + $2; if (NR == 1 || s < least) least = s } END { print least }'
}

# The most memory that a run of a command has, in kilobytes.
peak() { /usr/bin/time -f %M "$@" 2>&1 >/dev/null | tail -n 1; }

# What the program says of a text.
expect() {
    local said
    said=$("$program" "$1" 2>&1)
    case $said in
        *"$2"*) ;;
        *) die "of $(basename "$1") the program said $said, and not $2" ;;
    esac
}

{ head_lines; accounts 100000 rising; } >"$folder/rising"
{ head_lines; accounts 100000 falling; } >"$folder/falling"
{ head_lines; accounts 100000 shuffled; } >"$folder/shuffled"
{ head_lines; accounts 200000 rising; } >"$folder/twice"
{ head_lines; accounts 1 rising; } >"$folder/small"
{ head_lines; accounts 1 rising; computers 100000; } >"$folder/computers"
{ head_lines; accounts 1 rising; computers 200000; } >"$folder/computers_twice"
{ head_lines; accounts 360000 rising; } | head -c 16777216 | sed '$d' >"$folder/longest"
# A comment fills the longest text up.
printf '#%*s\n' $((16777216 - $(stat -c %s "$folder/longest") - 2)) '' >>"$folder/longest"
[ "$(stat -c %s "$folder/longest")" = 16777216 ] || die "the longest text isn't as long as it may be"

for order in rising falling shuffled; do
    expect "$folder/$order" "accounts=100000 computers=0"
    for line in 4 50003 100003; do
        { cat "$folder/$order"; sed -n "${line}p" "$folder/$order"; } >"$folder/again"
        expect "$folder/again" "bad settings at line 100004"
    done
done
expect "$folder/computers" "accounts=1 computers=100000"
{ cat "$folder/computers"; sed -n 5p "$folder/computers"; } >"$folder/again"
expect "$folder/again" "bad settings at line 100005"
expect "$folder/longest" "accounts=$(($(wc -l <"$folder/longest") - 4)) computers=0"

cat >"$folder/reader.py" <<'END'
import sys
accounts = {}
for number, line in enumerate(open(sys.argv[1], "rb"), 1):
    if not line.startswith(b"account "):
        continue
    words = line.split()
    rid = int(words[1])
    if rid in accounts:
        sys.exit("bad settings at line %d" % number)
    accounts[rid] = [bytes.fromhex(word.decode()) for word in words[2:]]
print(len(accounts))
END

# A line of the table: what is read, its bytes, and what that costs.
least=$(peak "$program" "$folder/small")
declare -A took
row() {
    local bytes memory
    bytes=$(stat -c %s "$folder/$2")
    took[$2]=$(seconds "$program" "$folder/$2")
    memory=$(peak "$program" "$folder/$2")
    awk -v what="$1" -v b="$bytes" -v t="${took[$2]}" -v m="$memory" -v l="$least" 'BEGIN {
        printf "%s, %d bytes: %.3f s, %.1f MB/s; %d kB at most, %.2f times the text over %d kB\n",
            what, b, t, b / t / 1e6, m, (m - l) * 1024 / b, l
    }'
}
row "100,000 accounts, rising" rising
row "100,000 accounts, falling" falling
row "100,000 accounts, shuffled" shuffled
row "200,000 accounts, rising" twice
row "100,000 computers" computers
row "200,000 computers" computers_twice
row "the longest text" longest

# A hundred times `wc -l`, since one is too short to measure.
lines() { for _ in $(seq 100); do wc -l "$folder/rising"; done; }
count=$(seconds lines)
awk -v o="${took[rising]}" -v t="${took[twice]}" -v c="${took[computers]}" -v d="${took[computers_twice]}" -v l="$count" 'BEGIN {
    printf "twice as many accounts take %.2f times as long, and twice as many computers %.2f times\n", t / o, d / c
    printf "wc -l: %.5f s; the reading of 100,000 accounts takes %.0f times as long\n", l / 100, o / (l / 100)
}'
if command -v python3 >/dev/null; then
    python=$(seconds python3 "$folder/reader.py" "$folder/rising")
    awk -v o="${took[rising]}" -v p="$python" 'BEGIN {
        printf "the reader in Python: %.3f s, %.1f times as long as ours\n", p, p / o
    }'
fi
echo "the load of the machine: $(cut -d' ' -f1 /proc/loadavg)"
