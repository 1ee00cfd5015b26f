#!/bin/sh
# Makes the lines of sixteen desks from a seed, serves them with so many workers, and times it.
#
#     bench/live.sh [WORKERS] [SEED] [FOLDER]
#
# The plan is a tree of 512 items, four under each; its 384 leaves have nine lines for each of 64 years, 221,184 inputs in all. Each leaf belongs to one desk, which
# asks for `sync` and `release,NAME` every thousand lines. The files stay in FOLDER, if one is given. At the end `batch` of the written journal is compared with the
# report, and one desk that sends all lines, with no worker, is timed beside `batch` of the same lines.
set -e
workers=${1:-16}
seed=${2:-1}
here=$(cd "$(dirname "$0")/.." && pwd)
program=$here/crates/qna_cli/out/qna_cli
[ -x "$program" ] || { echo "bench/live.sh: $program isn't built; run ./qna once" >&2; exit 1; }
if [ -n "${3-}" ]; then mkdir -p "$3"; folder=$(cd "$3" && pwd); else folder=$(mktemp -d); trap 'rm -rf "$folder"' EXIT; fi
cd "$folder"

awk 'BEGIN { print "start,2000"; print "reference,2031"; print "item,N000,"; for (i = 1; i < 512; i++) printf "item,N%03d,N%03d\n", i, int((i - 1) / 4) }' > plan
awk -v x="$seed" 'function draw() { x = (x * 16807) % 2147483647; return x }
    function send(line) { d = i % 16 + 1; print line > ("in" d); print line > "all"; if (++sent[d] % 1000 == 0) printf "sync\nrelease,N%03d\n", i > ("in" d) }
    BEGIN { for (y = 2000; y < 2064; y++) for (i = 128; i < 512; i++) {
        for (q = 1; q <= 4; q++) { send(sprintf("ind,N%03d,%dQ%d,%d", i, y, q, 1000 + draw() % 1000)); send(sprintf("price,N%03d,%dQ%d,%d", i, y, q, 900000 + draw() % 200001)) }
        send(sprintf("bench,N%03d,%d,%d", i, y, 4000 + draw() % 4001)) } }'

words=
for desk in $(seq 16); do words="$words in$desk out$desk"; done
ended() {
    echo "$1: $(( ($(date +%s%N) - start) / 1000000 )) ms"
}
start=$(date +%s%N)
# shellcheck disable=SC2086
if [ -x /usr/bin/time ]; then
    /usr/bin/time -f '%M KiB at most' "$program" live plan journal $words --workers "$workers" > report
else
    "$program" live plan journal $words --workers "$workers" > report
fi
ended "16 desks, $workers workers, $(wc -l < journal) inputs"
"$program" batch plan journal again
cmp again report && echo "batch of the journal gives the report"
start=$(date +%s%N)
"$program" live plan alone all answers --workers 0 > report
ended "one desk, no worker"
start=$(date +%s%N)
"$program" batch plan all again
ended "batch"
cmp again report && echo "batch of the same lines gives the report"
