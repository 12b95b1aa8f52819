#!/usr/bin/env bash
# Runs random sessions against another implementation, with random allocations refused, and says what failed.
#   tools/soak.sh MINUTES 'COMMAND' [OPTION..]     COMMAND answers a session on standard input, with --limit L among its words;
#                                                  options of tools/soak.py: --seed S, --jobs J, --program P (the proved one if not given)
set -u
[ $# -ge 2 ] || { sed -n '2,4p' "$0" >&2; exit 2; }
minutes=$1 other=$2
shift 2
exec python3 -u "$(dirname "${BASH_SOURCE[0]}")/soak.py" --minutes "$minutes" --other "$other" "$@"
