#!/usr/bin/env bash
# Callers that take and serve 1,000,000 turns in all, at a turn lock and at a Mutex of std: seconds and processor seconds
# of the best of several runs, and the seconds of one turn beside those of one that no other caller contends for.
# It fails where a turn of 32 callers costs more than 25 uncontended ones.
#
#   bench/turn.sh [RUNS]
set -euo pipefail
. "$(dirname "$0")/build.sh"

runs=${1:-5}
turns=1000000
limit=25

# seconds, user and system seconds of the best run: KIND CALLERS
best() {
    local TIMEFORMAT='%R %U %S' each=$((turns / $2)) run value
    for ((run = 0; run < runs; run++)); do
        { time value=$("$program" turn "$1" "$2" "$each"); } 2>&1
        if [ "$value" != "$turns" ]; then
            echo "$1 of $2 callers: $value of $turns turns" >&2
            exit 1
        fi
    done | sort -n | head -n 1
}

echo "processors $(nproc), load $(cut -d ' ' -f 1-3 /proc/loadavg), best of $runs runs of $turns turns"
printf '%-6s %7s %9s %11s %10s %13s\n' lock callers seconds processor 'ns a turn' 'uncontended 1'
over=0
for kind in turn mutex; do
    alone=
    for callers in 1 2 4 32; do
        read -r seconds user system < <(best "$kind" "$callers")
        alone=${alone:-$seconds}
        awk -v kind="$kind" -v callers="$callers" -v s="$seconds" -v u="$user" -v y="$system" -v a="$alone" -v n="$turns" \
            'BEGIN { printf "%-6s %7d %9.3f %11.3f %10.0f %11.1f x\n", kind, callers, s, u + y, s * 1e9 / n, s / a }'
        if [ "$kind" = turn ] && [ "$callers" = 32 ]; then
            over=$(awk -v s="$seconds" -v a="$alone" -v l="$limit" 'BEGIN { print (s > l * a) ? 1 : 0 }')
        fi
    done
done
exit "$over"
