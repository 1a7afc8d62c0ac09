#!/bin/sh
# Tries each misuse of a group handle in tools/misuse on a copy of the repository: the compiler must refuse it with the error that the edit names.
# Run it from the repository's root. It proves nothing: the errors are the compiler's, so it asks rt try, which compiles and does not prove.
# Its last line is 'N passed, M failed', and its exit status is 0 only if none failed.
set -u
passed=0
failed=0
for edit in tools/misuse/*.edit; do
    label=$(basename "$edit" .edit)
    file=$(sed -n 's/^file: //p' "$edit")
    error=$(sed -n 's/^error: //p' "$edit")
    crate=$(echo "$file" | cut -d/ -f2)
    copy=$(mktemp -d)
    tar cf - --exclude=out crates.txt crates | tar xf - -C "$copy"
    if OLD=$(sed -n 's/^old: //p' "$edit") NEW=$(sed -n 's/^new: //p' "$edit") awk '
        { text = text $0 "\n" }
        END {
            at = index(text, ENVIRON["OLD"])
            if (!at) exit 3
            printf "%s%s%s", substr(text, 1, at - 1), ENVIRON["NEW"], substr(text, at + length(ENVIRON["OLD"]))
        }' "$file" >"$copy/$file"; then
        (cd "$copy/crates/$crate" && rt try) >"$copy/log" 2>&1
        status=$?
        if [ "$status" -ne 0 ] && grep -q "error\[$error\]" "$copy/log"; then
            echo "misuse $label: refused with $error"
            passed=$((passed + 1))
        else
            echo "misuse $label: NOT refused with $error (status $status); the compiler ended:"
            tail -n 5 "$copy/log"
            failed=$((failed + 1))
        fi
    else
        echo "misuse $label: its old text is not in $file: adapt tools/misuse/$label.edit"
        failed=$((failed + 1))
    fi
    rm -rf "$copy"
done
echo "$passed passed, $failed failed"
[ "$failed" -eq 0 ]
