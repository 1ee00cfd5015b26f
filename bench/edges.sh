#!/usr/bin/env bash
# Runs the built program where no proof and no test of the gate can follow it: closed descriptors, words that aren't
# UTF-8, devices that are full, pipes that nobody reads or that are closed early, folders in place of files, files
# without rights, files that can't be read, that never end or that may not grow. It prints a line for each case, and at
# the end how many passed and failed, and ends with 0 where none failed.
#
#     bench/edges.sh [PROGRAM]
set -u
. "$(dirname -- "${BASH_SOURCE[0]}")/expect.sh"

printf 'start,2021\nreference,2021\nitem,TOTAL,\nitem,FOOD,TOTAL\nitem,SERV,TOTAL\n' > plan.csv
{
    for leaf in FOOD SERV; do
        for quarter in 1 2 3 4; do
            echo "ind,$leaf,2021Q$quarter,$((100 + quarter))"
            echo "price,$leaf,2021Q$quarter,1000000"
        done
        echo "bench,$leaf,2021,1234"
    done
} > clean.csv
{ cat clean.csv; echo 'nonsense'; echo 'ind,NONE,2021Q1,5'; } > input.csv
example=$home/examples/prices
refused=$(printf '19,no,form\n20,no,unknown')
plan_sum=$(sum_of plan.csv) input_sum=$(sum_of input.csv) clean_sum=$(sum_of clean.csv)

# The release of an example that was computed by hand.
"$program" batch "$example/plan.csv" "$example/input.csv" prices.csv > report.txt
expect "the release of an example, byte for byte" 0 $? "$(sum_of "$example/release.csv")" "$(sum_of prices.csv)" 0 \
    "$(size_of report.txt)"

# The files of a command as they are after it.
"$program" batch plan.csv input.csv release.csv > report.txt
expect "a release, its report, and the plan and the input as they were" \
    0 $? "$refused" "$(cat report.txt)" "$plan_sum" "$(sum_of plan.csv)" "$input_sum" "$(sum_of input.csv)" \
    "release,18" "$(head -1 release.csv)" "end,18" "$(tail -1 release.csv)" 25 "$(size_of report.txt)"
release_sum=$(sum_of release.csv)

{ cat release.csv; cat release.csv; } > old.csv
"$program" batch plan.csv input.csv old.csv > report.txt
expect "a longer file in the output's place is gone" 0 $? "$release_sum" "$(sum_of old.csv)"

# Pieces: an input of many, whole and byte by byte through a pipe.
awk 'BEGIN { for (n = 0; n < 30000; n++) printf "# comment %d\n", n }' > long.csv
cat input.csv >> long.csv
"$program" batch plan.csv long.csv whole.csv > whole.txt
expect "an input of many pieces" 0 $? "$release_sum" "$(sum_of whole.csv)" \
    "$(printf '30019,no,form\n30020,no,unknown')" "$(cat whole.txt)"
mkfifo pipe
dd if=input.csv of=pipe bs=1 2> /dev/null &
writer=$!
timeout 20 "$program" batch plan.csv pipe piped.csv > piped.txt
expect "the same input through a pipe, byte by byte" 0 $? "$release_sum" "$(sum_of piped.csv)" "$refused" \
    "$(cat piped.txt)"
kill "$writer" 2> /dev/null
wait

# Closed descriptors.
printf 'old' > out.csv
"$program" batch plan.csv clean.csv out.csv <&- >&-
expect "standard input and output closed, nothing to report" 0 $? "$release_sum" "$(sum_of out.csv)"
"$program" batch plan.csv input.csv out.csv <&- >&-
expect "standard input and output closed, refused lines" 6 $? "" "$(cat out.csv)" "$plan_sum" "$(sum_of plan.csv)" \
    "$input_sum" "$(sum_of input.csv)"
"$program" batch plan.csv input.csv out.csv >&-
expect "standard output closed, refused lines" 6 $? "" "$(cat out.csv)"
"$program" batch plan.csv input.csv out.csv <&- >&- 2>&-
expect "all three closed, refused lines" 6 $? "" "$(cat out.csv)"
"$program" batch plan.csv clean.csv out.csv 2>&-
expect "standard error closed" 0 $? "$release_sum" "$(sum_of out.csv)"

# Words.
"$program" batch $'\xff' input.csv out.csv > report.txt
expect "a word that isn't UTF-8" 2 $? "usage" "$(cat report.txt)" "$release_sum" "$(sum_of out.csv)"
"$program" > report.txt
expect "no words" 2 $? "usage" "$(cat report.txt)"
"$program" > /dev/full
expect "no words, and a report that is full" 2 $?

# Devices that are full, and a pipe that nobody reads.
"$program" batch plan.csv input.csv out.csv > /dev/full
expect "a report that is full" 6 $? "" "$(cat out.csv)"
"$program" batch plan.csv input.csv /dev/full > report.txt
expect "an output that is full" 6 $? "$refused"$'\n'"write,/dev/full" "$(cat report.txt)"
{ sleep 0.3; "$program" batch plan.csv input.csv out.csv; echo $? > status; } | true
expect "a report that nobody reads" 6 "$(cat status)" "" "$(cat out.csv)"

# Files that aren't there or aren't files; the old output stays.
cp release.csv out.csv
"$program" batch none.csv input.csv out.csv > report.txt
expect "no plan" 4 $? "open,none.csv" "$(cat report.txt)" "$release_sum" "$(sum_of out.csv)"
"$program" batch plan.csv none.csv out.csv > report.txt
expect "no input" 4 $? "open,none.csv" "$(cat report.txt)" "$release_sum" "$(sum_of out.csv)"
"$program" batch plan.csv input.csv none/out.csv > report.txt
expect "an output in no folder" 4 $? "open,none/out.csv" "$(cat report.txt)"
"$program" batch . input.csv out.csv > report.txt
expect "a folder as the plan" 5 $? "read,." "$(cat report.txt)" "$release_sum" "$(sum_of out.csv)"
"$program" batch plan.csv . out.csv > report.txt
expect "a folder as the input" 5 $? "read,." "$(cat report.txt)" "" "$(cat out.csv)"
cp release.csv out.csv
printf 'start,1\n' > bad.csv
"$program" batch bad.csv input.csv out.csv > report.txt
expect "a plan that is refused" 3 $? "plan,1,form" "$(cat report.txt)" "$release_sum" "$(sum_of out.csv)"

# Past the limits.
awk 'BEGIN { print "start,2021"; for (n = 0; n < 400000; n++) print "# a line of a plan that is too long" }' > large.csv
"$program" batch large.csv input.csv out.csv > report.txt
expect "a plan past its limit" 8 $? "toomuch,large.csv" "$(cat report.txt)" "$release_sum" "$(sum_of out.csv)"

# The verdict on a certificate.
cp "$home/examples/certificate/food.csv" food.csv
food_sum=$(sum_of food.csv)
"$program" check food.csv > report.txt
expect "a certificate's verdict, and the certificate as it was" 0 $? "yes" "$(cat report.txt)" 4 \
    "$(size_of report.txt)" "$food_sum" "$(sum_of food.csv)"
"$program" check food.csv > /dev/full
expect "a yes that can't be written" 6 $?
"$program" check plan.csv > report.txt
expect "a text that is no certificate" 7 $? "no," "$(head -c 3 report.txt)"
"$program" check plan.csv > /dev/full
expect "a no that can't be written" 7 $?

# Desks: one whose answers can't be written, one whose input is a folder, a journal that can't be written, and two
# that name one file.
cp clean.csv first.csv
printf 'ind,FOOD,2021Q1,101\nsync\nrelease\n' > second.csv
"$program" live plan.csv journal.csv first.csv first.out second.csv second.out > report.txt
expect "two desks, with the journal and the report" 0 $? "$clean_sum" "$(sum_of first.csv)" 19 \
    "$(wc -l < journal.csv)" \
    "release,19" "$(head -1 report.txt)" "synced" "$(sed -n 2p second.out | cut -d, -f1)" \
    18 "$(grep -c '^ok,' first.out)"
"$program" batch plan.csv journal.csv again.csv > /dev/null
expect "batch of the journal gives the report" 0 $? "$(sum_of report.txt)" "$(sum_of again.csv)"
"$program" live plan.csv journal.csv first.csv /dev/full second.csv second.out > report.txt
expect "a desk whose answers can't be written ends alone" 6 $? "release" "$(head -1 report.txt | cut -d, -f1)" \
    "end" "$(tail -1 second.out | cut -d, -f1)" "$(wc -l < journal.csv)" "$(head -1 report.txt | cut -d, -f2)"
"$program" live plan.csv journal.csv . first.out second.csv second.out > report.txt
expect "a folder as a desk's input ends that desk alone" 5 $? "" "$(cat first.out)" "release,1" \
    "$(head -1 report.txt)" "end" "$(tail -1 second.out | cut -d, -f1)"
"$program" live plan.csv /dev/full first.csv first.out second.csv second.out > report.txt
expect "a journal that can't be written" 6 $? "release,19" "$(head -1 report.txt)"
"$program" live plan.csv journal.csv first.csv first.out > /dev/full
expect "a report of desks that can't be written" 6 $? "$(wc -l < journal.csv)" 18
"$program" live plan.csv journal.csv none.csv first.out second.csv second.out > report.txt
expect "a desk without its input" 4 $? "open,none.csv" "$(cat report.txt)"
"$program" live plan.csv journal.csv first.csv first.out first.csv second.out > report.txt
expect "two desks of one input" 2 $? "usage" "$(cat report.txt)"

# Folders in place of files, in the other commands and places.
cp release.csv out.csv
ends "a folder as the output" 4 "open,." batch plan.csv input.csv .
ends "a folder as the certificate" 5 "read,." check .
ends "no certificate" 4 "open,none.csv" check none.csv
ends "a folder as the plan of desks" 5 "read,." live . journal.csv first.csv first.out
ends "no plan of desks" 4 "open,none.csv" live none.csv journal.csv first.csv first.out
rm -f journal.csv first.out second.out
ends "a folder for a desk's answers" 4 "open,." live plan.csv journal.csv first.csv first.out second.csv .
leaves "what was created stays empty, and the journal wasn't created" 0 "$(size_of first.out)" false \
    "$([ -e journal.csv ] && echo true || echo false)"
ends "a folder as the journal" 4 "open,." live plan.csv . first.csv first.out second.csv second.out
leaves "the desks' files were created, and stay empty" 0 "$(cat first.out second.out | wc -c)"

# A file that is opened and can't be read, and one that never ends.
mem=/proc/self/mem
cp release.csv out.csv
ends "a plan that can't be read" 5 "read,$mem" batch $mem input.csv out.csv
leaves "the output as it was" "$release_sum" "$(sum_of out.csv)"
ends "an input that can't be read" 5 "read,$mem" batch plan.csv $mem out.csv
leaves "the output created, and empty" "" "$(cat out.csv)"
ends "a certificate that can't be read" 5 "read,$mem" check $mem
ends "a plan of desks that can't be read" 5 "read,$mem" live $mem journal.csv first.csv first.out
"$program" live plan.csv journal.csv $mem first.out second.csv second.out > report.txt
expect "a desk whose lines can't be read ends alone" 5 $? "" "$(cat first.out)" "release,1" "$(head -1 report.txt)" \
    "end" "$(tail -1 second.out | cut -d, -f1)" 1 "$(wc -l < journal.csv)"
cp release.csv out.csv
ends "a plan that never ends" 8 "toomuch,/dev/zero" batch /dev/zero input.csv out.csv
leaves "the output as it was then too" "$release_sum" "$(sum_of out.csv)"
ends "a certificate that never ends" 8 "toomuch,/dev/zero" check /dev/zero
ends "a plan of desks that never ends" 8 "toomuch,/dev/zero" live /dev/zero journal.csv first.csv first.out

# Status lines that can't be written change no status.
ends_unheard "no plan, and a report that is full" 4 batch none.csv input.csv out.csv
ends_unheard "a folder as the plan, and a report that is full" 5 batch . input.csv out.csv
ends_unheard "a plan that is refused, and a report that is full" 3 batch bad.csv input.csv out.csv
ends_unheard "a plan past its limit, and a report that is full" 8 batch large.csv input.csv out.csv
ends_unheard "an output and a report that are full" 6 batch plan.csv clean.csv /dev/full
ends_unheard "no certificate, and a report that is full" 4 check none.csv
ends_unheard "a folder as the certificate, and a report that is full" 5 check .
ends_unheard "a certificate past its limit, and a report that is full" 8 check large.csv
ends_unheard "no plan of desks, and a report that is full" 4 live none.csv journal.csv first.csv first.out
ends_unheard "a plan of desks that is refused, and a report that is full" 3 live bad.csv journal.csv first.csv first.out
"$program" check food.csv >&-
expect "standard output closed, a yes" 6 $?
"$program" live plan.csv journal.csv first.csv first.out >&-
expect "standard output closed, the report of desks" 6 $? 18 "$(wc -l < journal.csv)" 18 "$(grep -c '^ok,' first.out)"

# Files without rights, for a user who is bound by them.
cp "$program" program && chmod 755 . program
mkdir -m 777 free && mkdir -m 555 shut && cp plan.csv secret.csv && chmod 000 secret.csv
cp release.csv kept.csv && chmod 444 kept.csv
[ "$(id -u)" -ne 0 ] || run=(setpriv --reuid=65534 --regid=65534 --clear-groups ./program)
ends "a plan without rights" 4 "open,secret.csv" batch secret.csv input.csv free/out.csv
ends "an input without rights" 4 "open,secret.csv" batch plan.csv secret.csv free/out.csv
leaves "no output was created" "" "$(ls free)"
ends "an output without rights" 4 "open,kept.csv" batch plan.csv input.csv kept.csv
leaves "the output without rights as it was" "$release_sum" "$(sum_of kept.csv)"
ends "an output in a folder without rights" 4 "open,shut/out.csv" batch plan.csv input.csv shut/out.csv
ends "a certificate without rights" 4 "open,secret.csv" check secret.csv
ends "a plan of desks without rights" 4 "open,secret.csv" live secret.csv free/journal first.csv free/first
ends "a desk's lines without rights" 4 "open,secret.csv" live plan.csv free/journal first.csv free/first secret.csv \
    free/second
leaves "the first desk's file was created, and nothing else" "first" "$(ls free)" 0 "$(size_of free/first)"
ends "a desk's answers without rights" 4 "open,kept.csv" live plan.csv free/journal first.csv kept.csv
ends "a journal without rights" 4 "open,kept.csv" live plan.csv kept.csv first.csv free/first
leaves "the file without rights as it was" "$release_sum" "$(sum_of kept.csv)"
# Threads that the system refuses: the desks are served one behind the other.
alone() { (ulimit -u 1; exec "${run[@]}" "$@"); }
alone live plan.csv free/journal first.csv free/first second.csv free/second > report.txt
expect "desks without threads" 0 $? 19 "$(wc -l < free/journal)" "release,19" "$(head -1 report.txt)" 18 \
    "$(grep -c '^ok,' free/first)" \
    "synced,19" "$(sed -n 2p free/second)"
run=("$program")

# Pipes that are closed early: by the writer, which ends the file there, and by the reader.
office=$home/examples/office
head -c 415 input.csv > pipe &
ends "an input whose pipe is closed early" 0 "19,no,form" batch plan.csv pipe out.csv
wait
leaves "the release of what came" "release,18" "$(head -1 out.csv)"
head -c 100 < pipe > /dev/null &
ends "an output whose pipe is closed early" 6 "write,pipe" batch "$office/plan.csv" "$office/input.csv" pipe
wait
{ cat first.csv; echo sync; for _ in $(seq 400); do echo release; done; } > asking.csv
head -c 100 < pipe > /dev/null &
"$program" live plan.csv journal.csv asking.csv pipe second.csv second.out > report.txt
expect "a desk whose reader leaves ends alone" 6 $? "end" "$(tail -1 second.out | cut -d, -f1)" \
    "$(wc -l < journal.csv)" "$(head -1 report.txt | cut -d, -f2)"
wait

# Files that the system lets grow to 1024 bytes only, where the caller has the signal for it ignored; what is piped
# has no such limit.
limited() { (trap '' XFSZ; ulimit -f 1; exec "$program" "$@"); }
"$program" batch "$office/plan.csv" "$office/input.csv" whole.csv
limited batch "$office/plan.csv" "$office/input.csv" out.csv | cat > report.txt
expect "an output that may not grow" 6 "${PIPESTATUS[0]}" "write,out.csv" "$(cat report.txt)" \
    "$(head -c 1024 whole.csv)" "$(cat out.csv)"
limited live plan.csv journal.csv asking.csv first.out | cat > report.txt
expect "answers that may not grow" 6 "${PIPESTATUS[0]}" 1024 "$(size_of first.out)" 18 "$(wc -l < journal.csv)" \
    "$release_sum" "$(sum_of report.txt)"
cat clean.csv clean.csv clean.csv > thrice.csv
"$program" live plan.csv whole.csv thrice.csv first.out > whole.txt
limited live plan.csv journal.csv thrice.csv first.out | cat > report.txt
expect "a journal that may not grow" 6 "${PIPESTATUS[0]}" "$(head -c 1024 whole.csv)" "$(cat journal.csv)" \
    "$(sum_of whole.txt)" "$(sum_of report.txt)" 54 "$(grep -c '^ok,' first.out)"
for _ in $(seq 100); do echo nonsense; done > refused.csv
"$program" batch plan.csv refused.csv out.csv > whole.txt
limited batch plan.csv refused.csv out.csv > report.txt
expect "a report that may not grow" 6 $? "" "$(cat out.csv)" "$(head -c 1024 whole.txt)" "$(cat report.txt)"

tell
