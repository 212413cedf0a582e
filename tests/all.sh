#!/bin/sh
# all.sh: every test. First every proof and every must-fail edit; then the C side on
# the archive of what was proved. The last line is rt's own count. It is printed only
# if everything else passed too.
set -eu
# shellcheck source=tests/toolchain.sh
. "$(dirname "$0")/toolchain.sh"

held=$(mktemp -d)
trap 'rm -rf "$held"' EXIT

# rt's last line is held back.
{
    proved=0
    rt ci 2>&1 || proved=$?
    echo "$proved" >"$held/status"
} | awk -v count="$held/count" -v bad="$held/bad" '
    NR > 1 { print line; fflush() }
    { line = $0 }
    /^rt: ok/ && /, [1-9][0-9]* bad/ { print >bad }
    END { print line >count }'
count=$(cat "$held/count")
proved=$(cat "$held/status")

if [ "$proved" -ne 0 ] || ! echo "$count" | grep -qE '^[0-9]+ passed, 0 failed$'; then
    echo "all: rt ci failed with status $proved; its last line was '$count'"
    exit 1
fi

# An edit that can't be applied or read is no edit that was refused.
if [ -s "$held/bad" ]; then
    echo "all: there are bad must-fail edits: $(cat "$held/bad")"
    exit 1
fi

sh tests/run.sh
echo "$count"
