#!/bin/sh
# Runs the built program over the examples, and the recipes over reports, and compares what they write: examples/check.sh [PROGRAM]
# PROGRAM is that of the repository unless it is given. Where it isn't built, nothing is run.
# The last line is 'examples: N passed, M failed'; the status is 0 where none failed. First it looks whether the cases that the gate
# runs are those of the examples, where python3 is there.
here=$(cd "$(dirname "$0")" && pwd)
if command -v python3 > /dev/null; then
    python3 "$here/cases.py" --check || exit 1
else
    echo "examples: no python3, so the cases of the gate aren't compared" >&2
fi
program=${1:-$here/../crates/vfault/out/vfault}
if [ ! -x "$program" ]; then
    echo "examples: skipped, no program at $program" >&2
    exit 0
fi
program=$(cd "$(dirname "$program")" && pwd)/$(basename "$program")
work=$(mktemp -d) || exit 1
trap 'rm -rf "$work"' EXIT
passed=0
failed=0

# one_run WANTED_STATUS WANTED_FILE NAME COMMAND..: output and message together are the wanted file, and the status is the wanted one
one_run() {
    wanted_status=$1
    wanted_file=$2
    name=$3
    shift 3
    "$@" > "$work/got" 2>&1
    status=$?
    if [ "$status" = "$wanted_status" ] && cmp -s "$wanted_file" "$work/got"; then
        passed=$((passed + 1))
    else
        failed=$((failed + 1))
        echo "failed: $name (status $status, wanted $wanted_status)"
        diff "$wanted_file" "$work/got" | head -n 10
    fi
}

# Each line of a folder's file `runs` is a status, the file with what is written, and the words.
for runs in "$here"/*/runs; do
    folder=$(dirname "$runs")
    cd "$folder" || exit 1
    while read -r wanted file words; do
        # the words are parted by spaces and hold none
        # shellcheck disable=SC2086
        one_run "$wanted" "$file" "$(basename "$folder"): $words" "$program" $words
    done < runs
done

# Each line of `recipes/tries` is the file with what is written, a recipe and its files.
cd "$here/recipes" || exit 1
while read -r file recipe; do
    # shellcheck disable=SC2086
    one_run 0 "$file" "recipes: $recipe" sh $recipe
done < tries

# Each line of a table of messages is a text and the message: designs as they stand, plans with their lines parted by ` / `.
cd "$work" || exit 1
while IFS= read -r line; do
    printf '%s\n' "${line%% => *}" > design.v
    printf '%s\n' "${line##* => }" > message
    one_run 1 message "messages: $line" "$program" check design.v top
done < "$here/messages/designs.txt"
echo 'module top; reg [1:0] q = 0; initial #10 q = 1; endmodule' > design.v
while IFS= read -r line; do
    printf '%s\n' "${line%% => *}" | sed 's, / ,\
,g' > plan.txt
    printf '%s\n' "${line##* => }" > message
    one_run 1 message "messages: $line" "$program" grade design.v plan.txt top 1
done < "$here/messages/plans.txt"

echo "examples: $passed passed, $failed failed"
[ "$failed" -eq 0 ]
