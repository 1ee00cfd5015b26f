#!/bin/sh
# Makes inputs from a seed and times the command `batch` on them.
#
#     bench/batch.sh [SEED]
#
# One input has 262,144 lines for the quarters of one leaf, so that reading, judging and storing are all that it costs; one has nine lines for each of 64 years of
# the 384 leaves of a tree of 512 items, four under each, so that the compilation is; one is 64 MiB of comments, so that the cutting of lines is. Where valgrind
# is there, the instructions of the first two are counted too.
set -e
seed=${1:-1}
here=$(cd "$(dirname "$0")/.." && pwd)
program=$here/crates/qna_cli/out/qna_cli
[ -x "$program" ] || { echo "bench/batch.sh: $program isn't built; run ./qna once" >&2; exit 1; }
folder=$(mktemp -d)
trap 'rm -rf "$folder"' EXIT
cd "$folder"

printf 'start,2021\nitem,FOOD,\n' > one.csv
awk -v x="$seed" 'BEGIN { for (n = 0; n < 262144; n++) { x = (x * 16807) % 2147483647; printf "ind,FOOD,%dQ%d,%d\n", 2021 + int(n / 4) % 64, n % 4 + 1, 1000 + x % 1000 } }' > lines.csv

awk 'BEGIN { print "start,2000"; print "reference,2031"; print "item,N000,"; for (i = 1; i < 512; i++) printf "item,N%03d,N%03d\n", i, int((i - 1) / 4) }' > tree.csv
awk -v x="$seed" 'function draw() { x = (x * 16807) % 2147483647; return x }
    BEGIN { for (i = 128; i < 512; i++) for (y = 2000; y < 2064; y++) {
        for (q = 1; q <= 4; q++) { printf "ind,N%03d,%dQ%d,%d\n", i, y, q, 1000 + draw() % 1000; printf "price,N%03d,%dQ%d,%d\n", i, y, q, 900000 + draw() % 200001 }
        printf "bench,N%03d,%d,%d\n", i, y, 4000 + draw() % 4001 } }' > leaves.csv

awk 'BEGIN { for (n = 0; n < 1048576; n++) print "# a comment that takes sixty-three bytes and then a line feed    " }' > comments.csv

timed() {
    rm -f release.csv
    start=$(date +%s%N)
    "$program" batch "$2" "$3" release.csv > report.txt
    end=$(date +%s%N)
    echo "$1: $(wc -c < "$3") bytes, $(wc -l < "$3") lines, $(( (end - start) / 1000000 )) ms, $(wc -c < release.csv) bytes out, $(wc -l < report.txt) lines refused"
}
timed "one leaf" one.csv lines.csv
timed "512 items" tree.csv leaves.csv
timed "comments" one.csv comments.csv

counted() {
    valgrind --tool=callgrind --callgrind-out-file=callgrind.out "$program" batch "$1" "$2" counted.csv 2>&1 >/dev/null | sed -n 's/.*Collected : //p'
}
if command -v valgrind > /dev/null 2>&1; then
    lines=$(counted one.csv lines.csv)
    echo "one leaf: $lines instructions, $(( lines / 262144 )) a line"
    echo "512 items: $(counted tree.csv leaves.csv) instructions"
fi
