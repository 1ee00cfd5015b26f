# What the scripts that run the built program have in common: a folder of their own, the cases and their count. It is
# read by `.`, by a script whose first word is the program, or else the one that ./qna built is taken.
home=$(cd -- "$(dirname -- "${BASH_SOURCE[0]}")/.." && pwd)
program=$(readlink -f -- "${1:-$home/crates/qna_cli/out/qna_cli}")
[ -x "$program" ] || { echo "$0: $program isn't built; run ./qna once" >&2; exit 1; }
run=("$program")
folder=$(mktemp -d)
trap 'rm -rf -- "$folder"' EXIT
cd -- "$folder" || exit 1

passed=0 failed=0

# A case by its name, then the status that it has to end with and the one that it ended with, then what has to be
# equal, two by two.
expect() {
    local name=$1 well=true
    shift
    while [ $# -ge 2 ]; do
        [ "$1" = "$2" ] || well=false
        shift 2
    done
    if $well; then
        passed=$((passed + 1))
        echo "ok      $name"
    else
        failed=$((failed + 1))
        echo "FAILED  $name"
    fi
}

# A case by its name, then what has to be equal, two by two.
leaves() {
    local name=$1
    shift
    expect "$name" "$@"
}

# A case by its name, the status and the whole report that it has to end with, and the words.
ends() {
    local name=$1 status=$2 report=$3 ended
    shift 3
    timeout 60 "${run[@]}" "$@" > report.txt 2> errors.txt
    ended=$?
    expect "$name" "$status" "$ended" "$report" "$(cat report.txt)" 0 "$(size_of errors.txt)"
}

# The same with a report that is full.
ends_unheard() {
    local name=$1 status=$2
    shift 2
    timeout 60 "${run[@]}" "$@" > /dev/full 2> errors.txt
    expect "$name" "$status" $? 0 "$(size_of errors.txt)"
}

# Tells the count, and ends with 0 where nothing failed.
tell() {
    echo "$passed passed, $failed failed"
    [ "$failed" -eq 0 ]
}

sum_of() { sha256sum < "$1"; }
size_of() { wc -c < "$1"; }
