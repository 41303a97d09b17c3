#!/usr/bin/env bash
# Tries the edits in tests/edits, outside the gate: mistakes that the gate refused before, most of which cost minutes a try. They are put into
# a copy of what is committed, in place of all others, and `rt must-fail` is run there over their crates alone; it says what became of each.
# With names of crates behind it, it tries those of these.
script=edits
. "$(dirname "${BASH_SOURCE[0]}")/common.sh"

git clone -q "$top" repository || exit 1
find repository/crates -name must-fail -exec rm -r {} +
[ "$#" -gt 0 ] || set -- $(ls "$top/tests/edits")
for crate; do
    cp -r "$top/tests/edits/$crate" "repository/crates/$crate/must-fail" || exit 1
done
cd repository || exit 1
for crate; do
    rt must-fail "$crate" > ../said 2>&1 || fail "$crate: $(tail -1 ../said)"
    grep "must-fail $crate/" ../said
done
[ "$failed" -eq 0 ] && echo "edits: all refused"
exit "$failed"
