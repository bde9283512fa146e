#!/bin/sh
# A worker on another machine, which has univmon on its path. The environment's UNIVMON_HOST names the machine; the job
# goes there by standard input, and the reply comes back by standard output.
exec ssh -o BatchMode=yes "${UNIVMON_HOST:?names the machine}" univmon "$@"
