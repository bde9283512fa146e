#!/bin/sh
# Measures a made trace on the made topology inline, by children of the program itself, and by children that take their
# whole job first, at several windows; by children that end themselves, write garbage or answer twice; and compares
# the texts, and the blocks of the epochs with those of `central --topology`. Times are of the whole call.
# workers.sh [PACKETS [FLOWS]]. Wants the program, which `rt run` in crates/univmon leaves at crates/univmon/out/univmon.
set -u
here=$(cd "$(dirname "$0")" && pwd)
program="${UNIVMON:-$here/../crates/univmon/out/univmon}"
packets=${1:-1048576}
flows=${2:-20000}
work=$(mktemp -d)
trap 'rm -rf "$work"' EXIT
export UNIVMON="$program"
"$program" generate topology > "$work/topology.toml" || exit 1
"$program" generate trace --packets "$packets" --flows "$flows" > "$work/trace.pcap" || exit 1

# A child of three ends itself; one writes garbage each third time; one writes its reply twice.
counted() {
    printf '#!/bin/sh\nn=$(cat "%s" 2>/dev/null || echo 0)\necho $((n + 1)) > "%s"\n%s\nexec "%s" "$@"\n' \
        "$work/$1.count" "$work/$1.count" "$2" "$program" > "$work/$1"
    chmod +x "$work/$1"
}
counted dies 'if [ $((n % 3)) = 1 ]; then kill -9 $$; fi'
counted garbage 'if [ $((n % 3)) = 1 ]; then cat > /dev/null; echo garbage; exit 0; fi'
printf '#!/bin/sh\n"%s" "$@" > "%s"\ncat "%s" "%s"\n' "$program" "$work/reply" "$work/reply" "$work/reply" > "$work/twice"
chmod +x "$work/twice"

run() {
    name=$1
    shift
    start=$(date +%s.%N)
    "$program" "$@" > "$work/$name.text" 2> "$work/$name.error"
    status=$?
    end=$(date +%s.%N)
    echo "$name: status $status, text $(cksum < "$work/$name.text" | cut -d ' ' -f 1), $(echo "$end - $start" | bc) s $(cat "$work/$name.error")"
}

measure="measure $work/topology.toml $work/trace.pcap"
run inline $measure
run central central "$work/trace.pcap" --topology "$work/topology.toml" --heap 64
for window in 1 4 32; do
    run "itself-$window" --worker - $measure --window "$window"
    run "spool-$window" --worker "$here/../examples/workers/spool.sh" $measure --window "$window"
done
run dies --worker "$work/dies" $measure --window 1
run garbage --worker "$work/garbage" $measure --window 1
run twice --worker "$work/twice" $measure --window 1

# With a heap that drops no key the blocks are those of `central`, without its lines of levels.
run kept $measure --heap 1024
run whole central "$work/trace.pcap" --topology "$work/topology.toml"
grep '^epoch .* kept$' "$work/kept.text" > /dev/null || echo "kept: a heap dropped a key"
sed '1,/^switch s11 /d' "$work/kept.text" > "$work/kept.blocks"
sed '1,3d' "$work/whole.text" | grep -v '^level ' > "$work/whole.blocks"
cmp -s "$work/kept.blocks" "$work/whole.blocks" && echo "blocks: the same" || echo "blocks: not the same"
