#!/bin/sh
# Compares `univmon central` with a plain optimised program for the same work, and prints the ratios of their times.
# Wants a C compiler and the program, which `rt run` in crates/univmon leaves at crates/univmon/out/univmon.
set -eu
cd "$(dirname "$0")"
program=../crates/univmon/out/univmon
folder=${TMPDIR:-/tmp}
trace=$folder/univmon_bench.pcap
[ -f "$trace" ] || python3 make_trace.py "$trace"
cc -O2 -o "$folder/univmon_central_c" central.c
for heap in 0 64; do
    rm -f "$folder/univmon_bench.times"
    for run in 1 2 3 4 5; do
        /usr/bin/time -a -o "$folder/univmon_bench.times" -f "univmon %U %M" "$program" central "$trace" --heap $heap > /dev/null
        /usr/bin/time -a -o "$folder/univmon_bench.times" -f "plain %U %M" "$folder/univmon_central_c" "$trace" $heap > /dev/null
    done
    awk -v heap=$heap '
        !($1 in best) || $2 < best[$1] { best[$1] = $2; memory[$1] = $3 }
        END {
            for (name in best) printf "heap %d %s %.2f s %d KB\n", heap, name, best[name], memory[name]
            printf "heap %d ratio %.2f\n", heap, best["univmon"] / best["plain"]
        }' "$folder/univmon_bench.times"
done
