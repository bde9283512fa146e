#!/bin/sh
# Runs the program at its edges: an address space that is walked down, a full device, a closed pipe, a trace that grows
# while it is read, and folders for files. Each line tells what was seen; one that begins with `wrong` makes the status 1.
# limits.sh [STEP]: the address space is walked down by so many kilobytes at a time, 64 unless told otherwise.
# Wants the program that UNIVMON names, else crates/univmon/out/univmon, where `rt run` leaves it.
set -u
here=$(cd "$(dirname "$0")" && pwd)
program="${UNIVMON:-$here/../crates/univmon/out/univmon}"
step=${1:-64}
work=$(mktemp -d)
trap 'rm -rf "$work"' EXIT
topology=$here/../examples/topology.toml
trace=$here/../examples/trace.pcap
wrong=0
wrong() {
    echo "wrong: $*"
    wrong=1
}

# Runs the program with so many kilobytes of address space; its status is left in $status.
limited() {
    room=$1
    shift
    (ulimit -v "$room" && exec "$program" "$@") > "$work/text" 2> "$work/error"
    status=$?
}

# With the words of a call: down from an ample limit until the program does not start, which a call without words shows.
walk() {
    "$program" "$@" > "$work/whole" || exit 1
    limit=1048576
    while limited $((limit / 2)) "$@" && [ "$status" -eq 0 ]; do
        limit=$((limit / 2))
    done
    same=0
    memory=0
    silent=0
    # Without words it ends with status 2, and where not even those find memory with 13.
    while limited "$limit" && { [ "$status" -eq 2 ] || [ "$status" -eq 13 ]; }; do
        limited "$limit" "$@"
        if [ "$status" -eq 0 ] && cmp -s "$work/text" "$work/whole"; then
            same=$((same + 1))
        elif [ "$status" -eq 13 ] && [ ! -s "$work/text" ] && [ "$(cat "$work/error")" = "univmon: out of memory" ]; then
            memory=$((memory + 1))
        elif [ "$status" -eq 13 ] && [ ! -s "$work/text" ] && [ ! -s "$work/error" ]; then
            silent=$((silent + 1))
        else
            wrong "$1 under $limit: status $status, $(wc -c < "$work/text") bytes, $(head -c 200 "$work/error")"
        fi
        limit=$((limit - step))
    done
    echo "$1: $same with the whole text, $memory out of memory, $silent without a line, down to $((limit + step)) kilobytes"
}

walk measure "$topology" "$trace"
walk place "$topology"
walk central "$trace" --topology "$topology"
walk total "$trace"

# A call ends with this status and line, and with nothing on standard output.
refused() {
    want=$1
    line=$2
    shift 2
    "$program" "$@" > "$work/text" 2> "$work/error"
    status=$?
    if [ "$status" -eq "$want" ] && [ ! -s "$work/text" ] && [ "$(cat "$work/error")" = "univmon: $line" ]; then
        echo "$1: status $want, $line"
    else
        wrong "$*: status $status, $(cat "$work/error")"
    fi
}

mkdir "$work/folder"
refused 3 "cannot read topology" measure "$work/folder" "$trace"
refused 3 "cannot read topology" place "$work/folder"
refused 3 "cannot read trace" measure "$topology" "$work/folder"
refused 3 "cannot read trace" total "$work/folder"

# No text can be written to a full device, nor into a pipe that nobody reads.
unwritten() {
    if [ "$status" -eq 10 ] && [ "$(cat "$work/error")" = "univmon: cannot write" ]; then
        echo "$*: status 10, cannot write"
    else
        wrong "$*: status $status, $(cat "$work/error")"
    fi
}

"$program" measure "$topology" "$trace" > /dev/full 2> "$work/error"
status=$?
unwritten "a full device"
(
    sleep 0.3
    "$program" measure "$topology" "$trace" 2> "$work/error"
    echo $? > "$work/status"
) | true
# A shell may end the line before all of its parts have.
until [ -s "$work/status" ]; do sleep 0.1; done
status=$(cat "$work/status")
unwritten "a closed pipe"
"$program" measure "$topology" "$trace" >&- 2> "$work/error"
status=$?
unwritten "a closed output"

# A trace that grows by pieces of 1,000 bytes, which end inside records: as many packets are counted as stood there whole, or
# the record that was cut is refused.
"$program" generate trace --packets 20000 > "$work/long" || exit 1
length=$(wc -c < "$work/long")
head -c 1024 "$work/long" > "$work/growing"
(
    at=1024
    while [ "$at" -lt "$length" ]; do
        tail -c +$((at + 1)) "$work/long" | head -c 1000 >> "$work/growing"
        at=$((at + 1000))
    done
) &
writer=$!
whole=0
cut=0
while kill -0 "$writer" 2> /dev/null; do
    "$program" total "$work/growing" > "$work/text" 2> "$work/error"
    status=$?
    if [ "$status" -eq 0 ] && grep -q '^packets [0-9]*$' "$work/text"; then
        whole=$((whole + 1))
    elif [ "$status" -eq 5 ] && [ ! -s "$work/text" ] && grep -q '^univmon: trace: short record at ' "$work/error"; then
        cut=$((cut + 1))
    else
        wrong "a growing trace: status $status, $(cat "$work/error")"
    fi
done
wait "$writer"
"$program" total "$work/growing" > "$work/text"
grep -q '^packets 20000$' "$work/text" || wrong "a trace that has grown: $(cat "$work/text")"
echo "a growing trace: $whole with a whole text, $cut refused at a cut record"
exit "$wrong"
