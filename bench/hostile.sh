#!/bin/sh
# Measures the example's trace by children that misbehave in one way (bench/hostile_worker.sh), at the windows 1, 4 and 32
# and 0 and 3 restarts. Each run ends with the text of a run inline under status 0, or under status 8 with nothing on standard
# output; a run that ends otherwise is told, and the status is then 1.
# hostile.sh WAY [RUNS]: 64 runs of each unless told otherwise; `all` tries each way. HOSTILE_EVERY=1 has each child misbehave,
# and else it is one in three. Wants the program that UNIVMON names, else crates/univmon/out/univmon, where `rt run` leaves it.
set -u
here=$(cd "$(dirname "$0")" && pwd)
program="${UNIVMON:-$here/../crates/univmon/out/univmon}"
runs=${2:-64}
nobody_reads="unread half_read hangs_up empty garbage noise flood search"
spoiled="short long twice magic version job levels items weight counter least count zero bucket same_bucket heap dropped family key_twice"
ways="nobody former half_written status stderr $nobody_reads $spoiled"
case " $ways all " in
*" ${1:-} "*) ;;
*)
    echo "hostile.sh WAY [RUNS], of the ways: $ways, all" >&2
    exit 2
    ;;
esac
[ "$1" = all ] || ways=$1
work=$(mktemp -d)
trap 'rm -rf "$work"' EXIT
export UNIVMON="$program" HOSTILE_STATE HOSTILE_WAY
call="measure $here/../examples/topology.toml $here/../examples/trace.pcap"
"$program" $call > "$work/inline" || exit 1
wrong=0
for HOSTILE_WAY in $ways; do
    worker=$here/hostile_worker.sh
    [ "$HOSTILE_WAY" = nobody ] && worker=$work/nobody
    for window in 1 4 32; do
        for restarts in 0 3; do
            same=0
            spent=0
            other=0
            run=0
            while [ "$run" -lt "$runs" ]; do
                run=$((run + 1))
                # A folder of its own for each run, since a child that was given up may still be writing.
                HOSTILE_STATE=$(mktemp -d "$work/state.XXXXXX")
                timeout 60 "$program" --worker "$worker" $call --window "$window" --restarts "$restarts" \
                    > "$work/text" 2> "$work/error"
                status=$?
                if [ "$status" -eq 0 ] && cmp -s "$work/text" "$work/inline"; then
                    same=$((same + 1))
                elif [ "$status" -eq 8 ] && [ ! -s "$work/text" ] && grep -q '^univmon: restarts spent: ' "$work/error"; then
                    spent=$((spent + 1))
                else
                    other=$((other + 1))
                    echo "status $status, $(wc -c < "$work/text") bytes, $(head -c 200 "$work/error")"
                fi
            done
            echo "$HOSTILE_WAY, window $window, restarts $restarts: $same the same text, $spent restarts spent, $other otherwise"
            [ "$other" -eq 0 ] || wrong=1
        done
    done
done
exit "$wrong"
