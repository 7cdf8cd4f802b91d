#!/bin/sh
# Refuses allocations in the tests: for each number N the Nth of each test, among them those for the start of a thread.
# A test that meets its refusal must end in want of memory or of a thread, and no other answer may change. What only the
# program calls is refused memory by .ci/refusals, and by hand in the rows `again` and `verdict` of crates/acceptance.
#
# sh bench/refusals.sh [CRATE..] takes the crate `tests`, or those named, and N from 1 to 50 and then twice as much each
# time, until all tests of a crate pass, since none allocates so often, or N passes 65,536. NUMBERS="1 8 64" takes these
# numbers alone. Nothing is proved. It prints a line for each crate and N: how many tests passed, and how
# many ended in a want. Each other test that failed is printed with what it said: its words don't tell of a want.
set -eu
root=$(cd "$(dirname "$0")/.." && pwd)
if [ "$#" -eq 0 ]; then
    set -- tests
fi
numbers=${NUMBERS:-$(seq 1 50) 64 128 256 512 1024 2048 4096 8192 16384 32768 65536}

# Reads what a run of the tests prints, and tells of those that failed.
told() {
    awk -v name="$1" '
        function ended() {
            if (block == "") return
            if (block ~ /OutOfMemory|AllocError|NoThread|[|]4["\n]|left: 4\n/ && block !~ /signal (4|7|8|11) /) wanted++
            else { others++; print block }
            block = ""
        }
        / \.\.\. FAILED$/ { ended(); block = $0; next }
        / \.\.\. ok$/ { ended(); passed++; next }
        /^    / { if (block != "") block = block "\n" $0; next }
        { ended() }
        END { ended(); print name ": " passed + 0 " passed, " wanted + 0 " in want, " others + 0 " others" }'
}

for crate in "$@"; do
    cd "$root/crates/$crate"
    for number in $numbers; do
        status=0
        said=$("${RT:-rt}" try --test --fail-alloc "$number" 2>&1) || status=$?
        case $said in
        *"test result:"*) ;;
        *)
            echo "$said" >&2
            exit "$status"
            ;;
        esac
        echo "$said" | told "$crate $number"
        if [ "$status" -eq 0 ] && [ "$number" -gt 50 ]; then
            break
        fi
    done
done
