#!/usr/bin/env bash
# Runs the gate, or what it does for some crates and those below them, and stamps each of its lines with the time since its
# start; last come a table of processor minutes by crate and kind of work, the total, and the most memory of one process.
#   tools/ci_times.sh [CRATE..] > times.txt
tools=$(dirname "${BASH_SOURCE[0]}")
RT_JOBS=${RT_JOBS:-$("$tools/gate_lanes.sh")} exec python3 -u "$tools/gate_times.py" "$@"
