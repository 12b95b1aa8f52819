#!/usr/bin/env bash
# Runs every example on the built program, and compares its output, standard error and exit status.
#   tools/run_examples.sh [PROGRAM]
# With NAME.session come NAME.out, the session's program in NAME.task and, where they are wanted,
# NAME.args (one word a line), NAME.err (none: empty) and NAME.status (none: 0).
set -u
top=$(cd "$(dirname "${BASH_SOURCE[0]}")/.." && pwd)
program=${1:-$top/crates/taskback/out/taskback}
[ -x "$program" ] || { echo "no program at $program: ./run builds it" >&2; exit 2; }
passed=0
failed=0
work=$(mktemp -d)
trap 'rm -rf "$work"' EXIT
for session in "$top"/examples/*.session; do
    base=${session%.session}
    args=()
    [ -f "$base.args" ] && mapfile -t args < "$base.args"
    "$program" "${args[@]}" < "$session" > "$work/out" 2> "$work/err"
    status=$?
    want=0
    [ -f "$base.status" ] && want=$(cat "$base.status")
    err=/dev/null
    [ -f "$base.err" ] && err=$base.err
    sed '/^---/,$d' "$session" > "$work/task"
    if ! cmp -s "$work/task" "$base.task"; then
        failed=$((failed + 1))
        echo "$(basename "$base"): its program isn't the one in $(basename "$base").task"
    elif [ "$status" = "$want" ] && cmp -s "$work/out" "$base.out" && cmp -s "$work/err" "$err"; then
        passed=$((passed + 1))
    else
        failed=$((failed + 1))
        echo "$(basename "$base"): differs (status $status, wanted $want)"
        diff "$base.out" "$work/out" | head -10
    fi
done
echo "$passed passed, $failed failed"
[ "$failed" = 0 ]
