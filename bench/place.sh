#!/bin/sh
# Places the paths of a generated topology by children that answer, die, write garbage or hang up, and compares the
# texts. Wants the program, which `rt run` in crates/univmon leaves at crates/univmon/out/univmon.
set -u
here=$(cd "$(dirname "$0")" && pwd)
program="$here/../crates/univmon/out/univmon"
work=$(mktemp -d)
trap 'rm -rf "$work"' EXIT
python3 "$here/make_drill.py" "$work/trace.pcap" "$work/topology.toml" 1 0 1

# A child that ends itself the first time that it runs, and then is the program.
cat > "$work/dies_once" <<END
#!/bin/sh
if [ -e "$work/died" ]; then exec "$program" child; fi
: > "$work/died"
kill -9 \$\$
END
printf '#!/bin/sh\ncat > /dev/null\necho garbage\n' > "$work/garbage"
printf '#!/bin/sh\nexec 0<&-\nsleep 1\n' > "$work/hangs_up"
chmod +x "$work/dies_once" "$work/garbage" "$work/hangs_up"

run() {
    name=$1
    shift
    "$program" "$@" place "$work/topology.toml" > "$work/$name.text" 2> "$work/$name.error"
    echo "$name: status $?, $(cksum < "$work/$name.text" | cut -d ' ' -f 1), $(grep -E '^(cost|bound) ' "$work/$name.text" | tr '\n' ' ')$(cat "$work/$name.error")"
}

run inside
run itself --worker -
run dies_once --worker "$work/dies_once"
run garbage --worker "$work/garbage"
run hangs_up --worker "$work/hangs_up"
run false --worker false
run nobody --worker "$work/nobody"
