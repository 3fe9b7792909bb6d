#!/bin/sh
# Runs the program where its files can't be read or its output can't be written: bench/outsides.sh [PROGRAM]
# PROGRAM is the built program, by itself the one that ./run builds. Tried are a folder in place of a file, a file that isn't there, that may not be read, whose reads fail,
# that has no end, that grows as it is read, and pipes as files; a full device, a pipe that nobody reads, a limit on the size of files, and no standard output or message.
# Each line that is printed is a run that didn't end as docs/MANUAL.md says; the last one counts. The status is 1 where a run was wrong. What the system here hasn't is skipped.
case ${1:-} in
    --help | -h) sed -n '2,/^[^#]/s/^# \{0,1\}//p' "$0"; exit 0 ;;
esac
home=$(cd "$(dirname "$0")/.." && pwd)
program=$(realpath "${1:-$home/crates/vfault/out/vfault}")
[ -x "$program" ] || { echo "outsides: no program at $program" >&2; exit 1; }
work=$(mktemp -d) || exit 1
growing=
trap '[ -z "$growing" ] || kill "$growing" 2> /dev/null; chmod -R u+rwx "$work"; rm -rf "$work"' EXIT
cd "$work" || exit 1
cp "$home/crates/vfault/data/design.v" d
cp "$home/crates/vfault/data/plan.txt" p
wanted_report=$home/crates/vfault/stdout
passed=0 failed=0 skipped=0
: > nothing

# ends NAME STATUS MESSAGE OUTPUT: compares how the run ended that left status, out and err behind; OUTPUT is a file, or - where any output is right
ends() {
    said=$(cat err 2> /dev/null)
    if [ "$status" = "$2" ] && [ "$said" = "$3" ] && { [ "$4" = - ] || cmp -s out "$4"; }; then
        passed=$((passed + 1))
    else
        failed=$((failed + 1))
        echo "$1: status $status (wanted $2), message '$said' (wanted '$3'), $(wc -c < out) bytes"
    fi
}

# skips NAME WHY
skips() {
    skipped=$((skipped + 1))
    echo "$1: skipped, $2" >&2
}

# run WORD..: leaves status, out and err behind; a run that takes over ten minutes is ended with 124
run() {
    status=0
    timeout 600 "$program" "$@" > out 2> err || status=$?
}

# reads NAME FILE STATUS MESSAGE: the file as the design of each form, and as the plan; WHICH in the message stands for the one of the two
reads() {
    for form in check faults; do
        run "$form" "$2" top
        ends "$1, $form" "$3" "$(echo "$4" | sed 's/WHICH/design/')" nothing
    done
    run grade "$2" p top 1
    ends "$1, the design of grade" "$3" "$(echo "$4" | sed 's/WHICH/design/')" nothing
    run grade d "$2" top 1
    ends "$1, the plan of grade" "$3" "$(echo "$4" | sed 's/WHICH/plan/')" nothing
}

# files
cannot_read='vfault: cannot read the WHICH'
mkdir folder
ln -s circle circle
reads 'a folder' folder 3 "$cannot_read"
reads 'a file that is not there' missing 3 "$cannot_read"
reads 'a file below a file' d/d 3 "$cannot_read"
reads 'a link to itself' circle 3 "$cannot_read"
reads 'a name of 5,000 bytes' "$(head -c 5000 /dev/zero | tr '\0' n)" 3 "$cannot_read"
reads 'a file named -' - 3 "$cannot_read"
cp d closed
chmod 000 closed
if cat closed > /dev/null 2>&1; then
    skips 'a file that may not be read' 'this user may read each file'
else
    reads 'a file that may not be read' closed 3 "$cannot_read"
fi
if [ -r /proc/self/mem ]; then
    reads 'a file whose reads fail' /proc/self/mem 3 "$cannot_read"
else
    skips 'a file whose reads fail' 'there is no /proc/self/mem'
fi
reads 'a file without an end' /dev/zero 7 'vfault: the WHICH is too long'
head -c 1048577 /dev/zero > long
reads 'a file that is too long' long 7 'vfault: the WHICH is too long'
head -c 1048576 /dev/zero | tr '\0' ' ' > blanks
run check blanks top
ends 'a design of the longest file' 1 'vfault: design: no module of that name' nothing
run grade d blanks top 1
ends 'a plan of the longest design' 7 'vfault: the plan is too long' nothing
run check /dev/null top
ends 'an empty file' 1 'vfault: design: no module of that name' nothing
run grade d /dev/null top 1
ends 'an empty plan' 1 'vfault: plan 1: bad line' nothing

# a file that is written as it is read: the run ends, with what the file held at some moment
: > growing
(while :; do echo '// a line that comes later' >> growing || exit; done) &
growing=$!
for form in check faults; do
    run "$form" growing top
    if [ "$status" = 7 ]; then
        ends "a file that grows, $form" 7 'vfault: the design is too long' nothing
    else
        ends "a file that grows, $form" 1 'vfault: design: no module of that name' nothing
    fi
done
kill "$growing"
wait "$growing" 2> /dev/null
growing=

# pipes in place of files
mkfifo first second
cat d > first &
cat p > second &
run grade first second top 1
ends 'two pipes as files' 0 '' "$wanted_report"
wait
(cat d; sleep 1; echo '// later') > first &
run grade first p top 1
ends 'a pipe that waits' 0 '' "$wanted_report"
wait

# output
cannot_write='vfault: cannot write'
if [ -w /dev/full ]; then
    : > out
    for words in 'grade d p top 1' 'grade d p top 4' 'check d top' 'faults d top' 'soak 7 1 1'; do
        status=0
        # the words hold no blanks
        # shellcheck disable=SC2086
        "$program" $words > /dev/full 2> err || status=$?
        ends "a full device, $words" 4 "$cannot_write" -
    done
    status=0
    "$program" grade d p top 1 > /dev/full 2> /dev/full || status=$?
    : > err
    ends 'a full device for both' 4 '' -
    status=0
    "$program" check missing top > out 2> /dev/full || status=$?
    ends 'a full device for the message' 3 '' nothing
else
    skips 'a full device' 'there is no /dev/full'
fi

# a pipe whose reader is gone: the status is written down by the first part of the pipe
: > out
(sleep 1; "$program" grade d p top 1 2> err; echo $? > status) | true
status=$(cat status)
ends 'a pipe that nobody reads' 4 "$cannot_write" -
(sleep 1; trap '' PIPE; "$program" grade d p top 1 2> err; echo $? > status) | true
status=$(cat status)
ends 'a pipe that nobody reads, its signal ignored' 4 "$cannot_write" -
# a list of faults that is longer than a pipe holds, and a reader that goes away, or is slow
echo 'module top; reg [127:0] a, b, c, d, e, f, g, h, i, j, k, l, m, n, o, p; endmodule' > wide
run faults wide top
mv out wide.faults
[ "$(wc -c < wide.faults)" -gt 65536 ] || echo 'the list of faults is too short for this test' >&2
("$program" faults wide top 2> err; echo $? > status) | head -c 1 > out
status=$(cat status)
ends 'a reader that goes away' 4 "$cannot_write" -
("$program" faults wide top 2> err; echo $? > status) | (sleep 1; dd bs=1000 2> /dev/null) > out
status=$(cat status)
ends 'a slow reader' 0 '' wide.faults

# a limit on the size of files: the output is cut there, and said to be
status=0
(trap '' XFSZ && ulimit -f 8 && exec "$program" faults wide top > out 2> err) || status=$?
head -c "$(wc -c < out)" wide.faults > begun
ends 'a limit on the size of files' 4 "$cannot_write" begun

# no output, no message, no input
status=0
"$program" grade d p top 1 >&- 2> err || status=$?
: > out
ends 'no standard output' 4 "$cannot_write" -
status=0
"$program" check missing top > out 2>&- || status=$?
: > err
ends 'no standard error' 3 '' nothing
status=0
"$program" grade d p top 1 > out 2> err <&- || status=$?
ends 'no standard input' 0 '' "$wanted_report"

# words
usage='vfault: usage: grade DESIGN PLAN TOP WORKERS [strict] | check DESIGN TOP [strict] | faults DESIGN TOP [strict] | soak NUMBER SIZE WORKERS | dict DESIGN PLAN TOP [strict] | diagnose DESIGN PLAN TOP RESPONSE [strict] | certify DESIGN PLAN TOP FAULT [strict] | audit DESIGN PLAN TOP CERT [strict] | pick DESIGN PLAN TOP [strict]'
run
ends 'no words' 2 "$usage" nothing
run check "$(printf 'd\377')" top
ends 'a word that is no text' 2 "$usage" nothing
run check '' top
ends 'an empty word' 2 "$usage" nothing
cp d 'a name, with blanks'
run grade 'a name, with blanks' p top 1
ends 'a name with blanks' 0 '' "$wanted_report"

# little address space: want of memory, or all that is wanted; a program that doesn't start there is one that was built with checks of its memory
echo 'module top; reg [127:0] m [0:65535]; endmodule' > large
echo 'objects 65536 nodes 0 processes 0' > large.sizes
for room in 20000 40000 80000; do
    # in two shells: the outer one says nothing where a signal ends the inner one
    if ( (ulimit -v $room && exec "$program") > /dev/null 2> err; [ $? = 2 ]) 2> /dev/null; then
        status=0
        (ulimit -v $room && exec timeout 600 "$program" check large top) > out 2> err || status=$?
        if [ "$status" = 0 ]; then
            ends "$room kB of address space" 0 '' large.sizes
        else
            ends "$room kB of address space" 5 'vfault: out of memory' nothing
        fi
    else
        skips "$room kB of address space" 'the program does not start there'
    fi
done

echo "outsides: $passed passed, $failed failed, $skipped skipped"
[ "$failed" = 0 ]
