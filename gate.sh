#!/bin/sh
# The gate. Every crate is proved, each must-fail edit is refused, each program writes what it should (rt ci);
# then the compiler refuses each misuse of a group handle (tools/misuse.sh).
# Its last line is 'N passed, M failed', and its exit status is 0 only if none failed.
set -u
cd "$(dirname "$0")" || exit 2
logs=$(mktemp -d)
trap 'rm -rf "$logs"' EXIT
{ rt ci; echo $? >"$logs/status"; } 2>&1 | tee "$logs/ci"
sh tools/misuse.sh 2>&1 | tee "$logs/misuse"
# What rt ci failed by its status alone, and edits that were not tried since they no longer fit (bad ones, which rt ci passes), count as failures.
more=0
if [ "$(cat "$logs/status")" != 0 ]; then
    echo "rt ci failed: see above"
    more=1
fi
if grep '^rt: ok' "$logs/ci" | grep -q ', [1-9][0-9]* bad'; then
    echo "a must-fail edit no longer fits the text that it edits: see BAD EDIT above, and mend it"
    more=$((more + 1))
fi
echo "$(tail -n 1 "$logs/ci" | sed 's/ (.*//') / $(tail -n 1 "$logs/misuse")" | awk -v more="$more" '
    /^[0-9]+ passed, [0-9]+ failed \/ [0-9]+ passed, [0-9]+ failed$/ {
        failed = $3 + $8
        if (more && !failed) failed = more
        print $1 + $6 " passed, " failed " failed"
        exit (failed > 0)
    }
    { print "the gate did not come to its end: " $0; print "0 passed, 1 failed"; exit 1 }'
