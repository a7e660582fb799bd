#!/bin/bash
# Builds the oracle, makes filters and compares them: the original, our definitions and, if given, our tool.
# Usage: oracle/run.sh SOURCES [TOOL]   SEED, BUILT, DAMAGED, LARGE and TREES may be set in the environment; so may
# UTILS, a folder of the sources of netlink-packet-utils 0.5.1, to be used in place of our stand-ins for it.
set -e
here="$(cd "$(dirname "${BASH_SOURCE[0]}")" && pwd)"
oracle="$("$here/build.sh" "$1" "$here/../target/oracle${UTILS:+-utils}" ${UTILS:+"$UTILS"})"
lines="$(mktemp)"
trap 'rm -f "$lines"' EXIT
nice -n 10 python3 "$here/generate.py" "${SEED:-1}" "${BUILT:-80000}" "${DAMAGED:-120000}" "${LARGE:-120}" > "$lines"
nice -n 10 python3 "$here/compare.py" ${UTILS:+utils} "$oracle" "$lines" ${2:+"$2" "${TREES:-5000}"}
