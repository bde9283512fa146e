#!/bin/sh
# A worker that takes its whole job before it starts, so that the children of a window run side by side: one that is fed
# through a pipe alone takes a piece at a time, and the next child is started once it has the last. The environment's
# UNIVMON names the program, else it is looked up on the path.
set -eu
job=$(mktemp)
trap 'rm -f "$job"' EXIT
cat > "$job"
"${UNIVMON:-univmon}" "$@" < "$job"
