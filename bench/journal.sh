#!/usr/bin/env bash
# The lines of 100,000 finishes with 20 adds each, about 120 MB, are read as events, and the events spelled again: the
# megabytes of text a second of processor time each way, of the best of several runs, and the most memory that a run took,
# its texts among it. Of the adds none, five or all are on other hosts than their page, on seven or each on one of its own;
# the via of each is the page. An address is parsed where its host was not read twice before. It fails where reading comes
# under 60 MB a second, or under 25 with each add on a host of its own, or spelling under 60.
#
#   bench/journal.sh [RUNS]
set -euo pipefail
. "$(dirname "$0")/build.sh"

runs=${1:-5}
report=$(mktemp)
trap 'rm -f "$report"' EXIT

echo "processors $(nproc), load $(cut -d ' ' -f 1-3 /proc/loadavg), best of $runs runs"
printf '%10s %12s %6s %10s %11s %8s\n' elsewhere 'other hosts' MB 'read MB/s' 'spelt MB/s' 'peak MB'
status=0
while read -r others hosts least; do
    best_read=0
    best_spelt=0
    for ((run = 0; run < runs; run++)); do
        /usr/bin/time -f '%M' "$program" journal 100000 20 "$others" "$hosts" times >"$report" 2>&1
        read -r bytes read spelt peak < <(tr -c '0-9\n' ' ' <"$report" | awk 'NR == 1 { b = $2 } NR == 2 { r = $1; s = $2 } NR == 3 { print b, r, s, $1 }')
        best_read=$((read > best_read ? read : best_read))
        best_spelt=$((spelt > best_spelt ? spelt : best_spelt))
    done
    printf '%10d %12d %6d %10d %11d %8d\n' "$others" "$hosts" $((bytes / 1000000)) "$best_read" "$best_spelt" $((peak / 1000))
    if [ "$best_read" -lt "$least" ] || [ "$best_spelt" -lt 60 ]; then
        status=1
    fi
done <<'ROWS'
0 7 60
5 7 60
20 7 60
20 2000000 25
ROWS
exit $status
