#!/bin/sh
# Compares `univmon total` with tcpdump and capinfos (Debian packages tcpdump, wireshark-common) on one trace.
# Wants the program, which `rt run` in crates/univmon leaves at crates/univmon/out/univmon.
set -eu
cd "$(dirname "$0")"
program=../crates/univmon/out/univmon
trace=${TMPDIR:-/tmp}/univmon_bench.pcap
[ -f "$trace" ] || python3 make_trace.py "$trace"
for run in 1 2 3 4 5; do
    /usr/bin/time -f "univmon %e s %M KB" "$program" total "$trace" > /dev/null
    /usr/bin/time -f "tcpdump %e s %M KB" tcpdump -n --count -r "$trace" > /dev/null 2> "$trace.tcpdump"
    tail -n 1 "$trace.tcpdump"
    /usr/bin/time -f "capinfos %e s %M KB" capinfos -c "$trace" > /dev/null
done
