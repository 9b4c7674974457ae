#!/usr/bin/env bash
# Tries the must-fail edits that the gate doesn't try, tests/edits/CRATE/WHAT.edit: the check must refuse each.
#
#     tests/edits.sh [CRATE..]    of these crates, else of each that has a folder in tests/edits
#
# It copies the work tree as it stands, without what git ignores, into a temporary folder, puts these edits there in the
# place of those of the gate, which `rt ci` tries, and has `rt must-fail` try them. That begins with what `rt check`
# kept on this machine for the same text, so run `rt check` in the crate's folder first: without it each edit costs a
# whole proof of the crate. The last line is 'N refused, M not', and the status isn't 0 where one wasn't refused, or
# couldn't be applied, compiled or tried.
set -euo pipefail

cd "$(dirname "${BASH_SOURCE[0]}")/.."
crates=("$@")
if [ $# = 0 ]; then
    for folder in tests/edits/*/; do crates+=("$(basename "$folder")"); done
fi

room=$(mktemp -d)
trap 'rm -rf "$room"' EXIT
git ls-files -coz --exclude-standard -- crates crates.txt HANDLES |
    while IFS= read -r -d '' file; do
        if [ -f "$file" ]; then printf '%s\0' "$file"; fi
    done | tar --null -T - -cf - | tar -xf - -C "$room"
rm -rf "$room"/crates/*/must-fail

wanted=0
for crate in "${crates[@]}"; do
    if [ ! -d "tests/edits/$crate" ] || [ ! -d "$room/crates/$crate" ]; then
        echo "tests/edits.sh takes names of crates with a folder in tests/edits, and $crate is none" >&2
        exit 2
    fi
    cp -r "tests/edits/$crate" "$room/crates/$crate/must-fail"
    wanted=$((wanted + $(find "$room/crates/$crate/must-fail" -type f | wc -l)))
done

status=0
(cd "$room" && rt must-fail "${crates[@]}") 2>&1 | tee "$room/said" || status=$?
refused=$(grep -c '^rt: must-fail .*: refused, as it must be' "$room/said" || true)
if [ "$status" = 0 ] && [ "$refused" != "$wanted" ]; then status=1; fi
echo "$refused refused, $((wanted - refused)) not"
exit "$status"
