#!/usr/bin/env bash
# docs/WALK.md lists the definitions that the top call cites, whole and in their order.
cd "$(dirname "${BASH_SOURCE[0]}")/.." || exit 1
if python3 tests/walk.py | diff - docs/WALK.md; then
    echo "the walk is listed whole"
else
    echo "docs/WALK.md isn't what tests/walk.py makes" >&2
    exit 1
fi
