#!/bin/sh
# Prints the time, in seconds, that what is packaged has: SOURCE_DATE_EPOCH, or that of the last commit, or, outside of a
# clone, the day of the newest version in CHANGELOG.md.
set -eu

top=$(dirname "$(dirname "$(readlink -f "$0")")")
if [ "${SOURCE_DATE_EPOCH-}" ]; then
    echo "$SOURCE_DATE_EPOCH"
elif ! git -C "$top" log -1 --format=%ct 2>/dev/null; then
    LC_ALL=C date -u -d "$(sed -n 's/^## [0-9][0-9.]*, //p' "$top/CHANGELOG.md" | head -n 1)" +%s
fi
