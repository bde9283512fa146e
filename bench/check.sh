#!/bin/sh
# Times `univmon check` on a certificate of as many nodes as there can be, and a copy of its bytes beside it.
# Wants the program, which `rt run` in crates/univmon leaves at crates/univmon/out/univmon.
set -eu
cd "$(dirname "$0")"
program=../crates/univmon/out/univmon
topology=${TMPDIR:-/tmp}/univmon_bench.toml
tree=${TMPDIR:-/tmp}/univmon_bench.tree
python3 make_certificate.py "$topology" "$tree"
for run in 1 2 3 4 5; do
    /usr/bin/time -f "univmon %e s %M KB" "$program" check "$topology" "$tree" > /dev/null
    /usr/bin/time -f "wc -l %e s %M KB" wc -l "$tree" > /dev/null
done
