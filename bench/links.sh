#!/usr/bin/env bash
# What it costs to find references in texts of 1 MB and of 8 MB, about 100 MB of each kind: link farms, long text, script,
# style, and texts of one mark alone, which begin what never ends. And the same for the links of whole responses. Megabytes
# a second of user time, of the best of several runs. It fails where HTML without script is read at less than 80 MB a second
# or another text at less than 40, or where 8 MB of a kind cost more than 9 times as much as 1 MB.
#
#   bench/links.sh [RUNS]
set -euo pipefail
. "$(dirname "$0")/build.sh"

runs=${1:-5}

farm='<li><a href="/articles/2024/page-12345.html" class="item">A link to an article</a></li> '
text='<p>It was the best of times, it was the worst of times, it was the age of wisdom, it was the age of foolishness.</p> '
script='function show(e) { var t = e.target || e.srcElement; if (t.id === "menu") { window.location = "/menu/open.html"; } } '
style='.item:hover { background: #fff url("../images/item-hover.png") no-repeat; margin: 0 auto; color: #333 } '
list=$(printf 'b%.0s' {1..2000})

# user seconds of the best run, which other work on the machine disturbs little: READER FRONT UNIT BYTES ROUNDS
best() {
    local TIMEFORMAT='%U' run
    for ((run = 0; run < runs; run++)); do
        { time "$program" links "$@" >/dev/null; } 2>&1
    done | sort -n | head -n 1
}

# milliseconds a text, without its making: READER FRONT UNIT BYTES ROUNDS
cost() {
    awk -v w="$(best "$@")" -v n="$(best "${@:1:4}" 0)" -v r="$5" 'BEGIN { print (w - n) * 1000 / r }'
}

failed=0
# READER KIND LIMIT FRONT UNIT; a limit of 0 is none
row() {
    local one eight
    one=$(cost "$1" "$4" "$5" 1000000 96)
    eight=$(cost "$1" "$4" "$5" 8000000 12)
    awk -v r="$1" -v k="$2" -v l="$3" -v o="$one" -v e="$eight" 'BEGIN {
        speed = 8000 / e; times = e / o; fault = speed < l ? "slow" : times > 9 ? "steep" : ""
        printf "%-7s %-22s %9.2f %9.2f %8.0f %6.1f %s\n", r, k, o, e, speed, times, fault
        exit fault != "" }' || failed=1
}

echo "processors $(nproc), load $(cut -d ' ' -f 1-3 /proc/loadavg), best of $runs runs"
printf '%-7s %-22s %9s %9s %8s %6s\n' reader kind 'ms 1 MB' 'ms 8 MB' 'MB/s' 'times'
row html links 80 '' "$farm"
row html text 80 '' "$text"
row html 'open script' 40 '<script>' "$script"
row html 'open style' 40 '<style>' "$style"
row css style 40 '' "$style"
row script script 40 '' "$script"
for reader in html css script; do
    for mark in '<' '<!--' '"' 'url('; do
        row "$reader" "$mark" 40 '' "$mark"
    done
done
row html '<a href="' 40 '' '<a href="'
row html '<script></' 40 '<script>' '</'
row html '&#1' 40 '<a href="' '&#1'
row css '@import' 40 '' '@import '
row script "\"'" 40 '' "\"'"
row page links 0 '' "$farm"
row page text 0 '' "$text"
row page '<' 0 '' '<'
row page refused 0 '' '<a href=x:>'
row page 'refused, long base' 0 "<base href=/$list/>" '<a href=x:>'
exit "$failed"
