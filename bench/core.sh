#!/usr/bin/env bash
# So many pages on 16 hosts are crawled over a link, a volume and a clock in memory, from one seed until the crawl is over, with
# the delays that a job has by default: the seconds of processor time of the whole program, of the best of several runs, and
# how many times as long twice the pages took. The core looks at each known key whenever it is asked for an item, and the link
# in memory at each page of its site, so twice the pages cost more than twice the time. It fails where 2,000 pages take 60 s or
# more.
#
#   bench/core.sh [RUNS]
set -euo pipefail
. "$(dirname "$0")/build.sh"

runs=${1:-3}
limit=60

# user and system seconds of the best run, which other work on the machine disturbs little: PAGES
best() {
    local TIMEFORMAT='%U %S' run
    for ((run = 0; run < runs; run++)); do
        { time "$program" core "$1" 16 >/dev/null; } 2>&1
    done | awk '{ print $1 + $2 }' | sort -n | head -n 1
}

echo "processors $(nproc), load $(cut -d ' ' -f 1-3 /proc/loadavg), best of $runs runs"
printf '%7s %9s %10s %7s\n' pages seconds 'ms a page' times
before=0
for pages in 500 1000 2000; do
    spent=$(best "$pages")
    awk -v p="$pages" -v s="$spent" -v b="$before" \
        'BEGIN { printf "%7d %9.2f %10.2f %7s\n", p, s, s * 1000 / p, (b > 0) ? sprintf("%.2f", s / b) : "-" }'
    before=$spent
done
awk -v s="$before" -v l="$limit" 'BEGIN { exit s < l ? 0 : 1 }'
