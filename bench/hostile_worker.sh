#!/bin/sh
# A worker that misbehaves one time in HOSTILE_EVERY (3 unless the environment says otherwise) in the way that HOSTILE_WAY
# names, and else is the program, which UNIVMON names. It keeps its files in the folder HOSTILE_STATE, which each run of the
# parent begins empty. bench/hostile.sh sets these and tells the ways. It never waits for longer than its parent's pipes.
set -u
state=$HOSTILE_STATE
call=0
until mkdir "$state/call-$call" 2> /dev/null; do
    call=$((call + 1))
done
if [ $((call % ${HOSTILE_EVERY:-3})) -ne $((1 % ${HOSTILE_EVERY:-3})) ]; then
    way=none
else
    way=$HOSTILE_WAY
fi
job=$state/call-$call/job
reply=$state/call-$call/reply

# Takes the whole job and writes the reply to it down.
answer() {
    cat > "$job"
    "$UNIVMON" "$@" < "$job" > "$reply" || exit 1
}

# Writes bytes, given in octal, over those of the reply at a place.
poke() {
    printf "$2" | dd of="$reply" bs=1 seek="$1" conv=notrunc 2> /dev/null
}

# Where the heaps of the reply stand, behind the head and the rows of 13 levels.
heaps() {
    od -An -v -tu1 -w1 "$reply" | awk '{ b[NR - 1] = $1 }
        END { at = 28; for (row = 0; row < 65; row++) at += 2 + 10 * (b[at] + 256 * b[at + 1]); print at }'
}

# The bytes of the reply that stand before a place, and those from it on.
front() { head -c "$1" "$reply"; }
back() { tail -c +$(($1 + 1)) "$reply"; }

if [ "$HOSTILE_WAY" = former ]; then
    answer "$@"
    cp "$reply" "$reply.kept" && mv "$reply.kept" "$state/kept-$call"
    [ "$way" = former ] && [ -e "$state/kept-$((call - 1))" ] && reply=$state/kept-$((call - 1))
    cat "$reply"
    exit 0
fi
case $way in
none) exec "$UNIVMON" "$@" ;;
unread) kill -9 $$ ;;
half_read) head -c 20 > "$job"; kill -9 $$ ;;
hangs_up) exec 0<&-; sleep 0.1; exit 0 ;;
empty) cat > "$job"; exit 0 ;;
garbage) cat > "$job"; echo garbage; exit 0 ;;
noise) cat > "$job"; head -c 5000 /dev/urandom; exit 0 ;;
flood) cat > "$job"; exec head -c 40000000 /dev/zero ;;
search) cat > "$job"; printf 'UMRP\002\001\000\000\000\000\001\002\002\000\001'; exit 0 ;;
esac
answer "$@"
case $way in
half_written) front $(($(wc -c < "$reply") / 2)); kill -9 $$ ;;
status) cat "$reply"; exit 1 ;;
stderr) echo "a line of the child" >&2; cat "$reply" ;;
short) head -c -1 "$reply" ;;
long) cat "$reply"; printf '\000' ;;
twice) cat "$reply" "$reply" ;;
magic) poke 0 'X'; cat "$reply" ;;
version) poke 4 '\011'; cat "$reply" ;;
job) poke 6 '\007'; cat "$reply" ;;
levels) poke 10 '\013'; cat "$reply" ;;
items) poke 16 '\377'; cat "$reply" ;;
weight) poke 20 '\377'; cat "$reply" ;;
counter) poke 32 '\377\377\377\177'; cat "$reply" ;;
least) poke 32 '\000\000\000\000\000\000\000\200'; cat "$reply" ;;
count) poke 28 '\001\004'; cat "$reply" ;;
zero) poke 32 '\000\000\000\000\000\000\000\000'; cat "$reply" ;;
bucket) poke 30 '\000\004'; cat "$reply" ;;
same_bucket) poke 40 '\000\000'; cat "$reply" ;;
heap) poke "$(heaps)" '\101\000'; cat "$reply" ;;
dropped) poke "$(($(wc -c < "$reply") - 1))" '\200'; cat "$reply" ;;
family) poke "$(($(heaps) + 2))" '\005'; cat "$reply" ;;
key_twice) at=$(heaps); front $((at + 46)); back $((at + 2)) ;;
*) echo "no such way: $way" >&2; exit 1 ;;
esac
