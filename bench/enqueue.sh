#!/usr/bin/env bash
# So many seed lines are enqueued onto a job with as many known keys, over a volume in memory: the seconds of processor time of
# the one `enqueue`, of the best of several runs. It reads the job and the whole journal, folds it, adds the seeds as one
# block, and prints the queue. It fails where 50,000 lines onto 50,000 keys take 5 s or more, or twice as many lines more than
# 2.6 times as long.
#
#   bench/enqueue.sh [RUNS]
set -euo pipefail
. "$(dirname "$0")/build.sh"

runs=${1:-3}

# milliseconds of the best run, which other work on the machine disturbs little: LINES
best() {
    local run
    for ((run = 0; run < runs; run++)); do
        "$program" enqueue "$1" "$1" times | awk 'NR == 2 { print $1 }'
    done | sort -n | head -n 1
}

echo "processors $(nproc), load $(cut -d ' ' -f 1-3 /proc/loadavg), best of $runs runs"
printf '%8s %10s %7s\n' lines seconds times
before=0
status=0
for lines in 12500 25000 50000; do
    spent=$(best "$lines")
    awk -v l="$lines" -v s="$spent" -v b="$before" 'BEGIN { printf "%8d %10.3f %7s\n", l, s / 1000, b ? sprintf("%.2f", s / b) : "-" }'
    if [ "$before" -gt 0 ] && awk -v s="$spent" -v b="$before" 'BEGIN { exit s > 2.6 * b ? 0 : 1 }'; then
        status=1
    fi
    before=$spent
done
if [ "$before" -ge 5000 ]; then
    status=1
fi
exit $status
