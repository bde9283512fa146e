#!/bin/sh
# Refuses each allocation of each row of crates/memory_rows in turn, one a process, and tells how many there are.
# `rt try --test --fail-alloc N` builds anew each time and refuses the Nth allocation of each test. So the rows are copied,
# WIDTH times each, into a copy of the repository where the Kth copy takes K allocations more before it begins: one call
# then refuses WIDTH numbers of each row. It ends with the call at which each row met its end with no refusal.
# fail_alloc.sh [WIDTH [ROW..]]: 64 numbers a call, and all rows, unless told otherwise.
set -eu
here=$(cd "$(dirname "$0")" && pwd)
width=${1:-64}
[ $# -gt 0 ] && shift
file=$here/../crates/memory_rows/src/refusals.rt
rows=${*:-$(sed -n '/^#\[test\]/{n;s/^fn \([a-z_]*\).*/\1/p}' "$file")}
work=$(mktemp -d)
trap 'rm -rf "$work"' EXIT
(cd "$here/.." && tar cf - --exclude=out --exclude=.git .) | (cd "$work" && tar xf -)
cd "$work/crates/memory_rows"
cp src/refusals.rt rows.rt

# The tests of the rows that are left, once for each number of allocations that go before.
write_tests() {
    sed '/^#\[test\]/,$d' rows.rt
    printf 'fn spend(alloc: Global, before: u32) {\n    for _ in 0..before {\n'
    printf '        let _spent = [0_u8].to_vec(alloc).is_ok();\n    }\n}\n'
    for row in $left; do
        before=0
        while [ "$before" -lt "$width" ]; do
            printf '\n#[test]\n'
            sed -n "/^fn $row(/,/^}/p" rows.rt |
                sed -e "1s/$row/${row}_behind_$before/" -e "1a\\    spend(rt.alloc(), $before);"
            before=$((before + 1))
        done
    done
}

left=$rows
number=0
wrong=0
while [ -n "$left" ]; do
    number=$((number + width))
    write_tests > src/refusals.rt
    rt try --test --fail-alloc "$number" --seconds 280 > log 2>&1 || true
    if ! grep -q '^test result' log; then
        tail -5 log
        exit 1
    fi
    still=
    for row in $left; do
        # The one copy of which all allocations were granted, and the next one refused.
        before=$(grep -A1 "^test refusals::${row}_behind_[0-9]* \.\.\. FAILED" log | grep -B1 'each growth was granted' |
            sed -n 's/.*_behind_\([0-9]*\) .*/\1/p')
        failed=$(grep -c "^test refusals::${row}_behind_[0-9]* \.\.\. FAILED" log || true)
        passed=$(grep -c "^test refusals::${row}_behind_[0-9]* \.\.\. ok" log || true)
        if [ -n "$before" ]; then
            echo "$row: $((number - before - 1)) allocations, each refused once"
            failed=$((failed - 1))
        else
            echo "$row: $((number - width + 1)) to $number refused, $passed ended as they may"
            still="$still $row"
        fi
        if [ "$failed" -gt 0 ]; then
            echo "$row: $failed ended otherwise"
            grep -A3 "^test refusals::${row}_behind_[0-9]* \.\.\. FAILED" log | head -20
            wrong=1
        fi
    done
    left=$still
done
exit "$wrong"
