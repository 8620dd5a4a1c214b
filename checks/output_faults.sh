#!/usr/bin/env bash
# Runs replay with its standard output closed, full, and behind a pipe that nobody reads: status 8 each
# time. Skipped where the program wasn't built in its folder by `rt run`.
cd "$(dirname "$0")/.." || exit 2
program=crates/replay/out/replay
script=crates/replay/stdin
[ -x "$program" ] || { echo "output faults: skipped, $program isn't built"; exit 0; }
faults=0
expect() {
    if [ "$2" = 8 ]; then echo "output $1: status 8"; else echo "output $1: status $2, not 8"; faults=1; fi
}
"$program" < "$script" >&-
expect closed $?
if [ -w /dev/full ]; then
    "$program" < "$script" > /dev/full
    expect full $?
fi
# More than a pipe holds, so that the program still writes when the reader has ended.
for moment in $(seq 1 5000); do echo "$moment EVENT x -"; done | "$program" | true
expect "piped to a reader that has ended" "${PIPESTATUS[1]}"
exit $faults
